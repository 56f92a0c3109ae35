#!/usr/bin/env python3
"""A proxy for datagrams between a client and a server, which loses, alters and delays some.

    python3 examples/proxy.py PORT TO_PORT [LOST [ALTERED [LATE [SEED]]]]

It takes a client's datagrams at PORT of loopback and sends them on to TO_PORT there, and the
answers back. LOST, ALTERED and LATE are the shares of datagrams that are lost (0.03), changed in
one bit (0.01), and delayed by 4 ms, so that later ones overtake them (0.03). Which ones, SEED says
(7). When it is terminated it says how many there were.
"""
import random
import select
import signal
import socket
import sys
import time

DELAY = 4_000_000  # In nanoseconds.
BURST = 64

now = time.monotonic_ns


class Proxy:
    """Two sockets: at the first the client's datagrams come in, at the second the server's. Each
    goes on from the other one, to where that socket's peer is."""

    def __init__(self, sockets, peers, lost=0.03, altered=0.01, late=0.03, seed="7"):
        self.at, self.peers = sockets, peers
        self.shares = lost, lost + altered, lost + altered + late
        self.random = random.Random(seed)
        self.delayed = []  # When each that is delayed goes on, from which socket, and the datagram.
        self.passed = self.lost = self.altered = self.late = 0

    def sockets(self):
        return self.at

    def next(self):
        """When the first datagram that is delayed goes on, if there is one."""
        return min((due for due, _, _ in self.delayed), default=None)

    def turn(self):
        """Passes on what came and what is due: whether there may be more to do at once."""
        came = self.take(0) + self.take(1)
        due = [one for one in self.delayed if one[0] <= now()]
        self.delayed = [one for one in self.delayed if one not in due]
        for _, side, datagram in due:
            self.forward(side, datagram)
        return came + len(due) > 0

    def take(self, side):
        """Takes datagrams at a socket, as many as in one turn: how many."""
        for count in range(BURST):
            try:
                datagram, peer = self.at[side].recvfrom(2048)
            except OSError:
                return count
            self.peers[side] = self.peers[side] or peer
            self.judge(1 - side, datagram)
        return BURST

    def judge(self, side, datagram):
        """Loses a datagram, alters it, delays it, or passes it on as it is."""
        chance = self.random.random()
        lost, altered, late = self.shares
        if chance < lost:
            self.lost += 1
        elif chance < altered:
            self.altered += 1
            changed = bytearray(datagram)
            changed[self.random.randrange(len(changed))] ^= 1 << self.random.randrange(8)
            self.forward(side, changed)
        elif chance < late:
            self.late += 1
            self.delayed.append((now() + DELAY, side, datagram))
        else:
            self.forward(side, datagram)

    def forward(self, side, datagram):
        """Sends a datagram on; where that fails, it is lost."""
        self.passed += 1
        try:
            self.at[side].sendto(datagram, self.peers[side])
        except OSError:
            self.lost += 1

    def __str__(self):
        return (
            f"{self.passed} datagrams passed, {self.late} of them late and {self.altered} altered, "
            f"and {self.lost} were lost"
        )


def socket_at(port):
    """A socket at a port of loopback, which never waits."""
    bound = socket.socket(socket.AF_INET, socket.SOCK_DGRAM)
    bound.setsockopt(socket.SOL_SOCKET, socket.SO_RCVBUF, 4 << 20)
    bound.bind(("127.0.0.1", port))
    bound.setblocking(False)
    return bound


class Terminated(Exception):
    """SIGTERM came."""


def terminate(*_):
    raise Terminated


def main():
    words = sys.argv[1:]
    asked = words in (["-h"], ["--help"])
    if asked or not 2 <= len(words) <= 6:
        print(__doc__.strip(), file=sys.stdout if asked else sys.stderr)
        return 0 if asked else 2
    signal.signal(signal.SIGTERM, terminate)
    shares = [float(word) for word in words[2:5]]
    try:
        sockets = [socket_at(int(words[0])), socket_at(0)]
        proxy = Proxy(sockets, [None, ("127.0.0.1", int(words[1]))], *shares, *words[5:])
        while True:
            if not proxy.turn():
                due = proxy.next()
                left = None if due is None else max(due - now(), 0) / 1e9
                select.select(sockets, [], [], left)
    except (Terminated, KeyboardInterrupt):
        print(proxy)
        return 0
    except OSError as error:
        print(f"proxy.py: {words[0]}: {error.strerror}", file=sys.stderr)
        return 1


if __name__ == "__main__":
    sys.exit(main())
