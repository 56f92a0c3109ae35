#!/usr/bin/env python3
"""Moves a file between two processes over UDP, sealed by a secret that both have.

    python3 examples/udp_file.py receive ADDRESS PORT FILE SECRET
    python3 examples/udp_file.py send ADDRESS PORT FILE SECRET

The first waits at this IPv4 address and port, and writes FILE, which it empties first; the second
sends FILE there. SECRET is a file of 32 bytes that nobody can guess. Either may be udp_file in C or
in Rust. It needs the libraries that ./quic-lib and examples/build build. hello.py says why the
first round is no handshake. The status is 0 where all was moved; where not, one line says why: 1 a
file, a secret or a socket is at fault, 2 the arguments, 3 the peer or the connection, 130 Ctrl-C.
"""
import ipaddress
import select
import sys
import time

import hello
from fennelhammer import BI, CLIENT, PIECE, SERVER
from transfer import Endpoint, Failed, bound_socket, main, now, turn_all

SECOND = 1_000_000_000
LONGEST_WAIT, HELLO_WAIT, HELLO_AGAIN = 60 * SECOND, 5 * SECOND, SECOND // 4


class Host(Endpoint):
    """An endpoint whose peer is in another process."""

    def take(self, datagram, peer):
        """Hands a datagram in; a client that repeats its hello didn't hear the answer."""
        if datagram != self.theirs.data:
            super().take(datagram, peer)
        elif self.side == SERVER:
            self.socket.send(self.hello.data)

    def meet(self, at):
        """Tells the own hello, reads the peer's, and makes the endpoint for it. What is no hello by
        this secret is skipped; of what comes only a hello by another one shortens the wait."""
        sending = self.side == CLIENT
        end, refused = now() + (HELLO_WAIT if sending else LONGEST_WAIT), False
        while now() < end:
            if sending:
                self.socket.sendto(self.hello.data, at)
            until = min(now() + HELLO_AGAIN, end) if sending else end
            if not select.select([self.socket], [], [], max(until - now(), 0) / 1e9)[0]:
                continue
            data, peer = self.socket.recvfrom(2048)
            if not hello.is_one(not sending, data):
                continue
            theirs = hello.read(self.secret, not sending, data)
            if theirs is not None:
                return self.connect(theirs, peer)
            if not refused:
                refused, end = True, min(end, now() + HELLO_WAIT)
        if sending:
            raise Failed("no answer in 5 seconds: no receiver, or one with another secret", 3)
        raise Failed("whoever came has another secret" if refused else "nobody came", 3)

    def connect(self, theirs, peer):
        """The peer has told this hello, from this address."""
        self.theirs = theirs
        self.socket.connect(peer)
        self.begin(theirs, peer)
        if self.side == SERVER:
            self.socket.send(self.hello.data)


def send(host, file):
    """Sends a file, and waits for the FIN by which the receiver answers its own: how many bytes."""
    stream, piece, moved, finished = host.connection.open(BI), file.read(PIECE), 0, False
    host.writable.add(stream)
    while not host.read(stream, bytes):
        while piece and stream in host.writable:
            written = host.write(stream, piece, 0)
            moved, piece = moved + written, piece[written:] or file.read(PIECE)
        if not piece and not finished:
            host.connection.finish(stream)
            finished = True
        turn_all([host])
    return moved


def receive(host, file):
    """Receives a file, answers its FIN, and waits until that was heard: how many bytes."""
    while not host.readable:
        turn_all([host])
    stream = min(host.readable)
    while not host.read(stream, file.write):
        turn_all([host])
    file.flush()
    host.connection.finish(stream)
    host.parting = True  # However the connection ends now, the file is whole.
    while stream not in host.finished and host.lost is None:
        turn_all([host])
    return file.tell()


def leave(host, code, text):
    """Closes the connection, and waits until nothing more is to be said."""
    host.close(code, text)
    while not host.is_drained():
        turn_all([host])


def act(host, at, file):
    """Moves the file, and closes the connection: how many bytes."""
    host.meet(at)
    try:
        moved = (send if host.side == CLIENT else receive)(host, file)
        leave(host, 0, b"moved")
        return moved
    except KeyboardInterrupt:
        leave(host, 130, b"interrupted")
        raise
    except OSError as error:
        leave(host, 1, b"FILE can't be read or written")
        raise Failed(f"FILE: {error.strerror}")


def address_of(address, port):
    """The address of two arguments."""
    try:
        ipaddress.IPv4Address(address)
    except ValueError:
        raise Failed(f"{address}: not an IPv4 address", 2)
    if not port.isdecimal() or not 0 < int(port) < 65536:
        raise Failed(f"{port}: not a port", 2)
    return address, int(port)


def opened(path, mode):
    """A file."""
    try:
        return open(path, mode)
    except OSError as error:
        raise Failed(f"{path}: {error.strerror}")


def secret_of(path):
    """The secret that a file has."""
    with opened(path, "rb") as file:
        try:
            secret = file.read(hello.SECRET + 1)
        except OSError as error:
            raise Failed(f"{path}: {error.strerror}")
    if len(secret) != hello.SECRET:
        size = "short" if len(secret) < hello.SECRET else "long"
        raise Failed(f"{path}: too {size} for a secret, which has 32 bytes")
    return secret


def udp_file(what, address, port, path, secret):
    """Sends or receives a file: the exit status."""
    if what not in ("send", "receive"):
        raise Failed("usage: udp_file.py send|receive ADDRESS PORT FILE SECRET", 2)
    sending, at, secret = what == "send", address_of(address, port), secret_of(secret)
    try:
        bound = bound_socket(("0.0.0.0", 0) if sending else at)
    except OSError as error:
        raise Failed(f"{port}: {error.strerror}")
    with opened(path, "rb" if sending else "wb") as file:
        host = Host(CLIENT if sending else SERVER, secret, bound)
        try:
            moved = act(host, at, file)
            refused = host.unseal.refused()
        finally:
            host.free()
    took = time.process_time()
    print(f"{moved} bytes, {took:.2f} s of processor time, {refused} datagrams refused")
    return 0


if __name__ == "__main__":
    sys.exit(main("udp_file.py", __doc__, 5, 5, udp_file))
