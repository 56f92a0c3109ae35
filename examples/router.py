#!/usr/bin/env python3
"""A server with 100 connections on one UDP socket of loopback, and their clients.

    python3 examples/router.py

The server finds out by the connection ID of each datagram whose it is. Each client asks twice on a
stream of its own, and goes on to another connection ID between; the first goes to another port too.
The keys hide nothing. The status is 0 where each answer came, no datagram was left over, and IDs
and the port were others.
"""
import secrets
import select
import socket
import sys
import time

from fennelhammer import BI, CLIENT, SERVER, Connection, EventKind, Settings, State

COUNT = 100
PATIENCE = 60  # In seconds.


class Router:
    """Which connection a datagram is for, by the connection ID behind its first byte."""

    def __init__(self):
        self.by_id, self.ids = {}, {}

    def update(self, connection):
        """Reads the IDs of a connection anew, where they have changed."""
        if connection.ids_changed():
            self.forget(connection)
            self.ids[connection] = [own.id for own in connection.own_ids()]
            self.by_id.update((id, connection) for id in self.ids[connection])

    def forget(self, connection):
        """No datagram is for a connection any more."""
        for id in self.ids.pop(connection, []):
            self.by_id.pop(id, None)

    def find(self, datagram):
        """The connection, or None."""
        return self.by_id.get(bytes(datagram[1:9]))


class Addresses:
    """A number for each address."""

    def __init__(self):
        self.numbers, self.known = {}, []

    def number(self, address):
        if address not in self.numbers:
            self.numbers[address] = len(self.known)
            self.known.append(address)
        return self.numbers[address]


def new_socket():
    """A socket of loopback, with a port of its own."""
    made = socket.socket(socket.AF_INET, socket.SOCK_DGRAM)
    made.bind(("127.0.0.1", 0))
    made.setblocking(False)
    return made


def datagrams(of):
    """What came to a socket, and from where."""
    while True:
        try:
            yield of.recvfrom(2048)
        except BlockingIOError:
            return


def expire(connection, now):
    """Lets the timers of a connection expire."""
    deadline = connection.next_timeout()
    if deadline is not None and deadline <= now:
        connection.timeout(now)


def given(connection, now):
    """The datagrams that a connection gives now."""
    while (datagram := connection.poll(now)) is not None:
        yield datagram


class Server:
    """All connections of a server, on one socket."""

    def __init__(self):
        self.socket, self.router, self.addresses = new_socket(), Router(), Addresses()
        self.served, self.stray = set(), 0
        # Of each connection, what its peer sent to, and from where.
        self.seen = {}

    def add(self, connection):
        self.served.add(connection)
        self.seen[connection] = (set(), set())
        connection.handshake_done()
        self.router.update(connection)

    def receive(self, now):
        """Hands each datagram to its connection."""
        for datagram, address in datagrams(self.socket):
            connection = self.router.find(datagram)
            if connection is None:
                self.stray += 1
                continue
            for seen, what in zip(self.seen[connection], (datagram[1:9], address)):
                seen.add(what)
            number = self.addresses.number(address)
            connection.receive(now, bytearray(datagram), address=number)

    def act(self, now):
        """What each connection asks for. Its IDs are read before it tells its peer of them."""
        for connection in list(self.served):
            expire(connection, now)
            self.take_events(connection)
            if connection.state() in (State.DRAINED, State.FAILED):
                self.router.forget(connection)
                self.served.discard(connection)
            else:
                self.router.update(connection)
                self.send(connection, now)

    def take_events(self, connection):
        for event in connection.events():
            if event.kind == EventKind.OPENED:
                self.answer(connection)

    def send(self, connection, now):
        for datagram in given(connection, now):
            self.socket.sendto(datagram, self.addresses.known[connection.address])

    def answer(self, connection):
        """Each stream brings a question in one datagram, which is answered by itself."""
        while (stream := connection.accept(BI)) is not None:
            connection.write(stream, connection.read(stream)[0])
            connection.finish(stream)


class Client:
    """One connection of a client, on a socket of its own."""

    def __init__(self, server, connection, moves):
        self.server, self.connection, self.moves = server, connection, moves
        self.socket, self.answer, self.answers = new_socket(), b"", []

    def ask(self, question):
        stream = self.connection.open(BI)
        self.connection.write(stream, question)
        self.connection.finish(stream)

    def receive(self, now):
        for datagram, _ in datagrams(self.socket):
            self.connection.receive(now, bytearray(datagram))

    def act(self, now):
        expire(self.connection, now)
        for event in self.connection.events():
            self.on_event(event, now)
        for datagram in given(self.connection, now):
            self.socket.sendto(datagram, self.server)

    def on_event(self, event, now):
        if event.kind == EventKind.HANDSHAKE_CONFIRMED:
            self.ask(b"first")
        elif event.kind == EventKind.READABLE:
            data, fin = self.connection.read(event.stream)
            self.answer += data
            if fin:
                self.on_answer(now)

    def on_answer(self, now):
        self.answers.append(self.answer)
        self.answer = b""
        if len(self.answers) == 1:
            self.connection.use_next_id()
            if self.moves:
                self.socket.close()
                self.socket = new_socket()
            self.ask(b"second")
        else:
            self.connection.close(now, 0)


def connect(server, moves, now):
    """A connection, as if a handshake had made it."""
    settings, ids = Settings(mtu_discovery=0), [secrets.token_bytes(8) for _ in range(2)]
    told = settings.parameters()
    client = Client(
        server.socket.getsockname(),
        Connection(CLIENT, *ids, told, now, settings),
        moves,
    )
    number = server.addresses.number(client.socket.getsockname())
    server.add(Connection(SERVER, *ids[::-1], told, now, settings, number))
    return client


def run(server, clients, end):
    """Lets all talk until the server has no connection left, or up to a time."""
    while server.served and time.monotonic_ns() < end:
        select.select([server.socket, *(client.socket for client in clients)], [], [], 0.005)
        for each in [server, *clients]:
            each.receive(time.monotonic_ns())
            each.act(time.monotonic_ns())


def report(server, clients):
    """Says what came of it: whether that is as wanted."""
    answered = sum(client.answers == [b"first", b"second"] for client in clients)
    ids = [len(ids) for ids, _ in server.seen.values()]
    ports = [len(ports) for _, ports in server.seen.values()]
    print(f"{answered} of {COUNT} connections on one socket were answered twice, {server.stray} "
          f"datagrams were for none; each was sent to by {min(ids)} IDs at least, and "
          f"{sum(count > 1 for count in ports)} came from another port")  # fmt: skip
    right = not server.served and answered == COUNT and server.stray == 0
    return right and min(ids) > 1 and sum(ports) == COUNT + 1


def main():
    server, begun = Server(), time.monotonic_ns()
    clients = [connect(server, at == 0, begun) for at in range(COUNT)]
    run(server, clients, begun + PATIENCE * 10**9)
    right = report(server, clients)
    for connection in [*server.seen, *(client.connection for client in clients)]:
        connection.free()
    return 0 if right else 1


if __name__ == "__main__":
    sys.exit(main())
