#!/usr/bin/env python3
"""Moves a file from a client whose port changes on the way to a server, which follows it.

    python3 examples/migrating.py FILE [SEED]

Between both, in this same program, stands a router that loses 2 % of the datagrams, as the seed
says: for each port of the client it has one of its own, as a router that translates addresses has.
When half of the file has arrived, the client goes on from another socket. The router keeps the last
datagrams that the client sent before that, and sends them once more from a third port, afterwards:
they are repeated ones, and move nothing. At the end it is checked that the digests are the same,
that the server took its peer to be at two addresses and no other, and that what it sends goes to
the second.
"""
import hashlib
import random
import sys
from collections import deque

from fennelhammer import BI
from transfer import Failed, bound_socket, contents, main, received, tell_figures, turn_all
from transfer import two_endpoints

LOST = 0.02
KEPT = 200  # So many old datagrams come once more.


class Router:
    """A socket at which the client's datagrams come in, and one towards the server for each port of
    the client's."""

    def __init__(self, server, seed):
        self.near, self.server = bound_socket(), server
        self.far = {}  # By where the client's datagrams come from: a socket towards the server.
        self.random, self.lost, self.kept = random.Random(seed), 0, deque(maxlen=KEPT)

    def sockets(self):
        return [self.near, *self.far.values()]

    def next(self):
        return None

    def turn(self):
        """Passes on what came: whether there may be more to do at once."""
        came = 0
        for datagram, client in received(self.near):
            came += 1
            if client not in self.far:
                self.far[client] = bound_socket()
            if len(self.far) == 1:
                self.kept.append(datagram)
            self.forward(self.far[client], datagram, self.server)
        for client, socket in self.far.items():
            for datagram, _ in received(socket):
                came += 1
                self.forward(self.near, datagram, client)
        return came > 0

    def forward(self, socket, datagram, to):
        """Sends a datagram on, or loses it."""
        if self.random.random() < LOST:
            self.lost += 1
            return
        try:
            socket.sendto(datagram, to)
        except OSError:
            self.lost += 1

    def replay(self):
        """Sends old datagrams of the client's once more, from a port of their own."""
        self.far["nobody"] = third = bound_socket()
        for datagram in self.kept:
            third.sendto(datagram, self.server)
        return third.getsockname()


def written(client, stream, data, start):
    """Writes what lies behind the start, and the FIN behind all: up to which offset."""
    if start == len(data):
        return start
    start = client.write(stream, data, start)
    if start == len(data):
        client.connection.finish(stream)
    return start


def move(parties, client, server, router, data):
    """Moves bytes to the server, while the client's port changes: what came, and the router's third
    port."""
    stream, came, start, third = client.connection.open(BI), bytearray(), 0, None
    client.writable.add(stream)
    while not server.read(stream, came.extend):
        start = written(client, stream, data, start)
        if third is None and 2 * len(came) >= len(data):
            client.socket.close()
            client.socket = bound_socket()
            third = "soon"
        if third == "soon" and server.connection.address == 1:
            third = router.replay()
        turn_all(parties)
    return bytes(came), third


def take_leave(parties, client, server):
    """The client closes the connection: until both have heard of it, or of nothing more."""
    server.parting = True
    client.close(0, b"moved")
    while server.lost is None or not client.is_drained():
        turn_all(parties)


def checked(server, third, data, came):
    """Whether all is as it has to be, and says so."""
    follows = len(server.peers) >= 2 and server.connection.address == 1
    duplicates = server.connection.stats()["dropped_duplicate"]
    same = hashlib.sha256(data).digest() == hashlib.sha256(came).digest()
    print(f"the server's datagrams went to {server.peers[0][1]} at first, and then to {server.peers[1][1]}")
    print(f"{duplicates} datagrams came once more, from {third[1]}, and moved nothing")
    print("the digests are the same" if same else "THE DIGESTS DIFFER")
    return follows and same and duplicates > 0


def migrating(path, seed="7"):
    """Moves this file while the client's port changes: the exit status."""
    data = contents(path)
    client, server = two_endpoints()
    router = Router(server.socket.getsockname(), seed)
    try:
        client.begin(server.hello, router.near.getsockname())
        first = client.socket.getsockname()
        router.far[first] = bound_socket()
        server.begin(client.hello, router.far[first].getsockname())
        parties = [client, server, router]
        came, third = move(parties, client, server, router, data)
        if third in (None, "soon"):
            raise Failed("the file is too short: it was moved before the port changed")
        right = checked(server, third, data, came)
        tell_figures(server)
        take_leave(parties, client, server)
    finally:
        client.free()
        server.free()
    print(f"{router.lost} datagrams were lost")
    return 0 if right else 1


if __name__ == "__main__":
    sys.exit(main("migrating.py", __doc__, 1, 2, migrating))
