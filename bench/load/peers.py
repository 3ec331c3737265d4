"""What the scripts beside this folder start and ask: a cluster of two members in one process, Squid, nginx, and an origin for them, on addresses of this machine."""
import contextlib
import os
import signal
import socket
import struct
import subprocess
import sys
import time

HERE = os.path.dirname(os.path.dirname(os.path.dirname(os.path.abspath(__file__))))
LOAD = os.path.join(HERE, "bench", "load")
PROGRAM = os.environ.get("PROGRAM") or subprocess.run([f"{HERE}/release/program"], stdout=subprocess.PIPE, check=True, text=True).stdout.strip()
NODES, SQUIDS, LOADER = ("127.0.0.1", "127.0.0.2"), ("127.0.0.11", "127.0.0.12", "127.0.0.13", "127.0.0.14"), "127.0.0.9"
started = []
# Where Debian has its servers.
os.environ["PATH"] += ":/usr/sbin"


def ports(count):
    """Ports that are free for TCP and UDP at every address of this machine now."""
    held, found = [], []
    while len(found) < count:
        stream, datagram = socket.socket(), socket.socket(socket.AF_INET, socket.SOCK_DGRAM)
        held += [stream, datagram]
        stream.bind(("0.0.0.0", 0))
        with contextlib.suppress(OSError):
            datagram.bind(("0.0.0.0", stream.getsockname()[1]))
            found.append(stream.getsockname()[1])
    for it in held:
        it.close()
    return found


def begin(words, **how):
    """Starts a program that is ended with this one."""
    started.append(subprocess.Popen(words, stderr=subprocess.DEVNULL, **how))
    return started[-1]


def end_all():
    for it in started:
        it.send_signal(signal.SIGTERM)
    for it in started:
        with contextlib.suppress(subprocess.TimeoutExpired):
            it.wait(5)
        it.kill()


def wait_for(address, port):
    for _ in range(1200):
        with contextlib.suppress(OSError):
            socket.create_connection((address, port), 1).close()
            return
        time.sleep(0.05)
    sys.exit(f"nobody serves {address}:{port}")


def query(url):
    """An ICP query (RFC 2186)."""
    octets = url.encode() + b"\0"
    return struct.pack(">BBHIIII", 1, 2, 24 + len(octets), 7, 0, 0, 0) + bytes(4) + octets


def clear(number, url):
    """An HTCP CLR as Squid reads it, with MINOR 1 (RFC 2756)."""
    text = lambda it: struct.pack(">H", len(it)) + it
    data = b"\x40\x02" + struct.pack(">I", number) + b"\0\0" + text(b"GET") + text(url.encode()) + text(b"HTTP/1.1") + text(b"")
    data = struct.pack(">H", len(data) + 2) + data
    return struct.pack(">HBB", len(data) + 6, 0, 1) + data + b"\0\2"


def get(address, port, url):
    """The status by which a URL is answered."""
    with socket.create_connection((address, port), 10) as stream:
        stream.sendall(f"GET {url} HTTP/1.1\r\nhost: o\r\nconnection: close\r\n\r\n".encode())
        answer = b""
        while piece := stream.recv(65536):
            answer += piece
    return int(answer.split(b" ", 2)[1])


ORIGIN = """[[origin]]
host = "{host}"
port = 80
address = "127.0.0.1"
connect = {origin}
"""

ROSTER = """default_lifetime = 600
copies = 2000
bytes = 16777216
query_wait = 20
[master]
address = "127.0.0.1"
htcp = {master}
{nodes}
{foreign}
""" + ORIGIN.format(host="o", origin="{origin}")

CACHE = """[[{kind}]]
id = {id}
name = "{name}"
address = "{address}"
http = {http}
icp = {icp}
htcp = {htcp}
"""

PEER = '[[node.peer]]\nid = {id}\nrole = "sibling"\nby = "icp"\n'


class Cluster:
    """Two members and their master, in one process that takes lines. Each member has the other and all foreign caches as its siblings by ICP: one at LOADER, of which
    only the ICP port is used, and those that are handed in, each as its address and its ports for HTTP, ICP and HTCP. `data` prepares the folder of their files, and `options` are further
    words of the command. `further` are origins beside that of the host `o`: their hosts and ports. Of those that a member asks, `asks` may leave out the foreign caches, or all.
    `limits` are lines that the roster begins with. `joining` are the ids of further members, which join, and are asked by nobody."""

    def __init__(self, work, origin, foreign=(), data=lambda folder: None, options=(), further=(), asks=("members", "foreign"), limits="", joining=()):
        master, self.own, spare, unused = ports(4)
        self.http, self.icp, htcp = ports(2), ports(2), ports(2)
        others = [(LOADER, spare, self.own, unused), *foreign] if "foreign" in asks else []
        peers = "".join(PEER.format(id=101 + at) for at in range(len(others)))
        nodes, caches = "", ""
        for at in range(2):
            nodes += CACHE.format(kind="node", id=at + 1, name=f"n{at + 1}", address=NODES[at], http=self.http[at], icp=self.icp[at], htcp=htcp[at])
            nodes += PEER.format(id=2 - at) * ("members" in asks) + peers
        for id in joining:
            by_http, by_icp, by_htcp = ports(3)
            nodes += CACHE.format(kind="node", id=id, name=f"n{id}", address=NODES[0], http=by_http, icp=by_icp, htcp=by_htcp) + "joins = true\n"
        for at, (address, by_http, by_icp, by_htcp) in enumerate(others):
            caches += CACHE.format(kind="foreign", id=101 + at, name=f"f{at}", address=address, http=by_http, icp=by_icp, htcp=by_htcp)
        with open(f"{work}/cluster.toml", "w") as file:
            file.write(limits + ROSTER.format(master=master, nodes=nodes, foreign=caches, origin=origin))
            file.write("".join(ORIGIN.format(host=host, origin=port) for host, port in further))
        os.mkdir(f"{work}/data")
        data(f"{work}/data")
        words = [PROGRAM, "cluster", f"{work}/cluster.toml", "--data", f"{work}/data", *options]
        self.run = begin(words, stdin=subprocess.PIPE, stdout=subprocess.PIPE, bufsize=0)
        wait_for(NODES[1], self.http[1])

    def line(self, text):
        self.run.stdin.write(text.encode() + b"\n")
        return self.run.stdout.readline().decode().strip()

    def purge(self, url):
        """Seconds from the line to `done`."""
        start = time.perf_counter()
        number = self.line(f"purge {url}").split()[1]
        while self.line(f"status {number}") != f"done {number}":
            time.sleep(5e-5)  # (a run reads a bounded number of lines)
        return time.perf_counter() - start


SQUID = """http_port {address}:{http}
icp_port {icp}
htcp_port {htcp}
udp_incoming_address {address}
visible_hostname {name}.test
unique_hostname {name}.test
pid_filename {folder}/pid
cache_log {folder}/cache.log
coredump_dir {folder}
access_log none
cache_store_log none
netdb_filename none
pinger_enable off
dns_nameservers 127.0.0.1
digest_generation off
icp_query_timeout 2000
memory_cache_shared off
cache_mem 64 MB
maximum_object_size_in_memory 128 KB
shutdown_lifetime 0 seconds
http_access allow all
icp_access allow all
htcp_access allow all
htcp_clr_access allow all
cache_effective_user {user}
never_direct allow all
{peers}
"""

# A peer of Squid that is the origin of a host.
SQUID_ORIGIN = """cache_peer 127.0.0.1 parent {origin} 0 name={host} no-query no-digest originserver
acl {host} dstdomain {host}
cache_peer_access {host} allow {host}
"""


class Squid:
    """A Squid that keeps copies in memory alone, with these lines of peers, behind which other lines may stand; where none are given, its only peer is the origin."""

    def __init__(self, work, at, origin, places=None, peers=None):
        self.address, self.name, folder = SQUIDS[at], f"sq{at}", f"{work}/squid{at}"
        self.http, self.icp, self.htcp = places or ports(3)
        peers = peers or f"cache_peer 127.0.0.1 parent {origin} 0 no-query originserver"
        os.mkdir(folder)
        user = "nobody" if os.geteuid() == 0 else os.environ.get("USER", "nobody")
        text = SQUID.format(address=self.address, http=self.http, icp=self.icp, htcp=self.htcp, name=self.name, folder=folder, user=user, peers=peers)
        with open(f"{folder}/squid.conf", "w") as file:
            file.write(text)
        subprocess.run(["chmod", "-R", "a+rwX", work], check=True)
        self.run = begin(["squid", "-N", "-n", self.name, "-f", f"{folder}/squid.conf"], stdout=subprocess.DEVNULL)
        wait_for(self.address, self.http)
        time.sleep(1.5)


NGINX = """daemon off; worker_processes 1; pid {folder}/pid; error_log {folder}/error.log; user {user};
events {{ worker_connections 8192; }}
http {{ access_log off; proxy_cache_path {folder}/cache keys_zone=z:100m; client_body_temp_path {folder}/b; proxy_temp_path {folder}/p;
 fastcgi_temp_path {folder}/f; uwsgi_temp_path {folder}/u; scgi_temp_path {folder}/s; {options}
 {servers}}}
"""

NGINX_SERVER = "server {{ listen 127.0.0.1:{http}{listening}; {name} location / {{ proxy_cache z; proxy_cache_key $scheme$host$request_uri; proxy_pass http://127.0.0.1:{origin}; }} }}\n "


class Nginx:
    """An nginx of one worker with a cache of files, for the origin of all hosts but `further`, which are other hosts and the ports of their origins. `options` are further lines."""

    def __init__(self, work, origin, further=(), options=""):
        folder = f"{work}/nginx"
        (self.http,) = ports(1)
        os.makedirs(f"{folder}/cache")
        user = "nobody nogroup" if os.geteuid() == 0 else os.environ.get("USER", "nobody")
        with open(f"{folder}/nginx.conf", "w") as file:
            servers = NGINX_SERVER.format(http=self.http, listening=" backlog=1024", name="", origin=origin)
            servers += "".join(NGINX_SERVER.format(http=self.http, listening="", name=f"server_name {host};", origin=port) for host, port in further)
            file.write(NGINX.format(folder=folder, user=user, options=options, servers=servers))
        subprocess.run(["chmod", "-R", "a+rwX", work], check=True)
        self.run = begin(["nginx", "-c", f"{folder}/nginx.conf", "-p", folder], stdout=subprocess.DEVNULL)
        wait_for("127.0.0.1", self.http)
