"""Figures of processes, and of the rounds of a measurement, for the scripts beside this folder."""
import contextlib
import os
import re
import statistics
import time


def family(process):
    """A process and all below it."""
    found = [process]
    with contextlib.suppress(OSError):
        for thread in os.listdir(f"/proc/{process}/task"):
            for child in open(f"/proc/{process}/task/{thread}/children").read().split():
                found += family(int(child))
    return found


def processor(process):
    """Processor seconds so far."""
    ticks = 0
    for it in family(process):
        ticks += sum(map(int, open(f"/proc/{it}/stat").read().rsplit(")", 1)[1].split()[11:13]))
    return ticks / os.sysconf("SC_CLK_TCK")


def resident(process):
    """Resident memory in KiB."""
    return sum(int(re.search(r"VmRSS:\s*(\d+)", open(f"/proc/{it}/status").read())[1]) for it in family(process))


def loop_time():
    """Processor milliseconds of a loop that only adds."""
    start = time.process_time()
    sum(range(1_000_000))
    return (time.process_time() - start) * 1e3


def told(ratios):
    """The median of ratios, with the least and the greatest."""
    return f"{statistics.median(ratios):.2f} times ({min(ratios):.2f} to {max(ratios):.2f})" if ratios else "-"
