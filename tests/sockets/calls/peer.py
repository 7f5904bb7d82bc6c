"""A server whose answers are written down, and messages of GIOP 1.2 for it."""
import contextlib
import socket
import struct
import threading

REPLY, LOCATE_REPLY, CLOSE, ERROR, FRAGMENT = 1, 4, 5, 6, 7


def message(kind, body, order=">", more=False):
    flags = (order == "<") | more << 1
    return b"GIOP\x01\x02" + bytes([flags, kind]) + struct.pack(f"{order}I", len(body)) + body


def text(octets, order=">"):
    """A string as CDR has it, and octets up to the next multiple of 4."""
    body = struct.pack(f"{order}I", len(octets) + 1) + octets + b"\0"
    return body + bytes(-len(body) % 4)


def reply(body=b"", status=0, number=1, order=">", more=False):
    """A reply. Its body begins at the octet 24, a multiple of 8."""
    return message(REPLY, struct.pack(f"{order}III", number, status, 0) + body, order, more)


def fragment(body, number=1, order=">", more=False):
    return message(FRAGMENT, struct.pack(f"{order}I", number) + body, order, more)


def received(stream, count):
    octets = b""
    while len(octets) < count:
        more = stream.recv(count - len(octets))
        if not more:
            raise EOFError
        octets += more
    return octets


def request_from(stream):
    """The octets of the next message, and the number of the request."""
    head = received(stream, 12)
    order = "<" if head[6] & 1 else ">"
    body = received(stream, struct.unpack(f"{order}I", head[8:])[0])
    return head + body, struct.unpack(f"{order}I", body[:4])[0]


class Peer:
    """Answers each connection with the next of its scripts, the last of them for ever: a function of the connection, which
    is closed behind it."""

    def __init__(self, *scripts):
        self.scripts = scripts
        self.asked = []
        self.count = 0
        self.socket = socket.create_server(("127.0.0.1", 0))
        self.port = self.socket.getsockname()[1]
        threading.Thread(target=self.serve, daemon=True).start()

    def serve(self):
        with contextlib.suppress(OSError):
            while True:
                stream, _ = self.socket.accept()
                script = self.scripts[min(self.count, len(self.scripts) - 1)]
                self.count += 1
                threading.Thread(target=self.answer, args=(stream, script), daemon=True).start()

    def answer(self, stream, script):
        with stream, contextlib.suppress(OSError, EOFError):
            script(self, stream)

    def take(self, stream):
        """Takes a request, and gives its number."""
        octets, number = request_from(stream)
        self.asked.append(octets)
        return number

    def close(self):
        self.socket.close()


def saying(*pieces):
    """A script that takes a request and says these octets, piece by piece."""

    def script(peer, stream):
        peer.take(stream)
        stream.setsockopt(socket.IPPROTO_TCP, socket.TCP_NODELAY, 1)
        for piece in pieces:
            stream.sendall(piece)

    return script


def always(body, status=0):
    """A script that answers request after request."""

    def script(peer, stream):
        while True:
            number = peer.take(stream)
            stream.sendall(reply(body, status, number))

    return script
