"""origin.py PORT: an origin at 127.0.0.1. The path /N/.. is answered with N octets, which may be kept for 600 seconds, and /asked, which may not, with how many asks of
other paths came. Each stream has one answer."""
import socket
import sys
import threading
from email.utils import formatdate

counted = threading.Lock()
asked = 0


def answer(path):
    """The body of a path, and for how long it may be kept."""
    global asked
    with counted:
        if path == b"asked":
            return b"%d" % asked, 0
        asked += 1
    count = path.split(b"/")[0]
    return b"x" * (int(count) if count.isdigit() else 1), 600


def serve(stream):
    held = b""
    with stream:
        while b"\r\n\r\n" not in held:
            piece = stream.recv(65536)
            if not piece:
                return
            held += piece
        target = held.split(b" ", 2)[1]
        path = target.split(b"/", 3)[3] if target.startswith(b"http://") else target[1:]
        body, seconds = answer(path)
        fields = b"date: %s\r\ncache-control: max-age=%d\r\ncontent-length: %d\r\n" % (formatdate(usegmt=True).encode(), seconds, len(body))
        stream.sendall(b"HTTP/1.1 200 OK\r\n" + fields + b"connection: close\r\n\r\n" + body)


listener = socket.socket()
listener.setsockopt(socket.SOL_SOCKET, socket.SO_REUSEADDR, 1)
listener.bind(("127.0.0.1", int(sys.argv[1])))
listener.listen(1024)
while True:
    threading.Thread(target=serve, args=(listener.accept()[0],), daemon=True).start()
