#!/usr/bin/env python3
"""Moves a file between the two endpoints of a connection over UDP on loopback, there and back.

    python3 examples/transfer.py FILE

It needs the libraries that ./quic-lib and examples/build build. Both endpoints are in this program,
each with a socket of its own; examples/udp_file.py has one, for two processes. The client writes
the file to a stream, and the server sends back what it read there; then the digests are compared.
In place of a handshake this program hands each endpoint the other's parameters and connection ID,
and both seal by a secret that is drawn anew. At the end the client closes the connection, and the
server hears of it. Where nothing comes from one endpoint for five seconds, the other gives the
connection up.
"""
import hashlib
import secrets
import select
import socket
import sys
import time

import hello
from fennelhammer import BI, CLIENT, SERVER, Blocked, Connection, Error, EventKind, Lost, Missing
from fennelhammer import PIECE, Refused, SealCode, Settings, State, library

BURST = 64  # The most datagrams that an endpoint takes, and sends, in one turn.
LONGEST_WAIT = 100_000_000
IDLE = 5_000  # For how many milliseconds nothing may come.
NAMES = {CLIENT: "client", SERVER: "server"}
# Linux's numbers of an option and its value, which the module socket doesn't name: datagrams go
# unfragmented, whatever the kernel believes of the path.
IP_MTU_DISCOVER, IP_PMTUDISC_PROBE = 10, 3
UNIDIRECTIONAL = 2  # The bit of a stream's ID that says so (RFC 9000, section 2.1).


class Failed(Exception):
    """Why the file can't be moved, in one line, and the status to end with."""

    def __init__(self, why, status=1):
        super().__init__(why)
        self.status = status


now = time.monotonic_ns


def bound_socket(address=("127.0.0.1", 0)):
    """A socket at an address, by default at a free port of loopback, which never waits, and sends
    nothing in fragments, as path MTU discovery wants it."""
    bound = socket.socket(socket.AF_INET, socket.SOCK_DGRAM)
    bound.setsockopt(socket.SOL_SOCKET, socket.SO_RCVBUF, 4 << 20)
    try:
        bound.setsockopt(socket.IPPROTO_IP, IP_MTU_DISCOVER, IP_PMTUDISC_PROBE)
    except OSError:
        pass  # A system that refuses it carries datagrams all the same.
    bound.bind(address)
    bound.setblocking(False)
    return bound


def received(bound):
    """The datagrams that came to a socket, and from where, as many as are taken in one turn."""
    for _ in range(BURST):
        try:
            datagram, peer = bound.recvfrom(2048)
        except (BlockingIOError, ConnectionRefusedError):
            return
        yield bytearray(datagram), peer


class Endpoint:
    """One endpoint of a connection, its socket and keys, and which streams can go on."""

    def __init__(self, side, secret, bound):
        self.side, self.secret, self.socket = side, secret, bound
        asks = dict(ack_frequency=1, ack_max_delay=2_500_000)  # In place of 25 ms.
        self.settings = Settings(max_idle_timeout_ms=IDLE, **asks)
        own_id = secrets.token_bytes(hello.ID)
        self.hello = hello.write(secret, side == CLIENT, own_id, self.settings.parameters())
        self.connection = self.seal = self.unseal = None
        self.peers = []  # Where datagrams came from: each has its place's number.
        self.readable, self.writable, self.finished = set(), set(), set()
        self.parting = False  # Whether the connection is to be closed now.
        self.lost = None  # Why it is lost, once it is.

    def begin(self, theirs, peer):
        """Makes the endpoint for the one that wrote this hello, whose datagrams come from there."""
        words = (self.hello.id, theirs.id, theirs.parameters, now(), self.settings)
        self.connection = Connection(self.side, *words)
        self.connection.ping()  # The idle timeout begins with what is sent, and not before.
        self.seal = hello.keys(self.secret, self.hello, theirs, True)
        self.unseal = hello.keys(self.secret, theirs, self.hello, False)
        self.peers = [peer]

    def free(self):
        """Frees what was made."""
        for each in (self.connection, self.seal, self.unseal):
            if each is not None:
                each.free()
        self.socket.close()

    def sockets(self):
        return [self.socket]

    def next(self):
        """When a timer expires, if one is set."""
        return self.connection.next_timeout()

    def turn(self):
        """Takes what came and is due, and sends: whether there may be more to do at once."""
        came = [self.take(*each) for each in received(self.socket)]
        timer = self.next()
        if timer is not None and timer <= now():
            self.connection.timeout(now())
        self.hear()
        return self.send() or bool(came)

    def take(self, datagram, peer):
        """Hands a datagram in, if it opens. A server follows its peer to where that came from."""
        try:
            self.unseal(datagram)
            if peer not in self.peers:
                self.peers.append(peer)
            self.connection.receive(now(), datagram, address=self.peers.index(peer))
        except Refused as refused:
            if refused.code not in (SealCode.REFUSED, SealCode.SHORT):
                raise Failed(str(refused))
            return  # Somebody changed it, or made it up.
        except Error:
            return  # The connection is closed by it, which an event says.

    def hear(self):
        """Notes the events of bidirectional streams, of which the peer's are accepted. Others aren't
        read."""
        for event in self.connection.events():
            if event.kind == EventKind.LOST:
                self.part(event)
            if event.kind == EventKind.OPENED and event.dir == BI:
                self.readable.add(self.connection.accept(event.dir))
            if event.kind == EventKind.READABLE and not event.stream & UNIDIRECTIONAL:
                self.readable.add(event.stream)
            if event.kind == EventKind.WRITABLE:
                self.writable.add(event.stream)
            if event.kind == EventKind.FINISHED:
                self.finished.add(event.stream)

    def part(self, event):
        """The connection is lost: a fault, unless it is to be closed, or was with code 0."""
        self.lost = event.reason
        by_peer = event.reason == Lost.PEER_APPLICATION
        if self.parting or (by_peer and event.code == 0):
            return
        if event.reason == Lost.IDLE:
            raise Failed(f"nothing came for {IDLE / 1000:g} seconds", 3)
        raise Failed(f"{'the peer closed' if by_peer else 'failed'}: {event.text}", 3)

    def send(self):
        """Sends the datagrams that are ready: whether there may be more."""
        for _ in range(BURST):
            datagram = self.connection.poll(now())
            if datagram is None:
                return False
            try:
                self.seal(datagram)
                self.socket.sendto(datagram, self.peers[self.connection.address])
            except Refused as refused:
                raise Failed(str(refused))
            except OSError:
                continue  # It counts as lost.
        return True

    def write(self, stream, data, start):
        """Writes what lies behind the start, as far as it is taken: up to which offset."""
        try:
            while stream in self.writable and start < len(data):
                start += self.connection.write(stream, data[start : start + PIECE])
        except Blocked:
            self.writable.discard(stream)
        return start

    def read(self, stream, append):
        """Appends what can be read: whether the stream is read to its end."""
        try:
            while stream in self.readable:
                data, fin = self.connection.read(stream)
                append(data)
                if fin:
                    return True
        except Blocked:
            self.readable.discard(stream)
        return False

    def close(self, code, text):
        """Closes the connection."""
        self.parting = True
        self.connection.close(now(), code, text)

    def is_drained(self):
        return self.connection.state() >= State.DRAINED


def wait(parties):
    """Waits until a datagram comes at a party, or a timer of one expires."""
    timers = [timer for timer in (party.next() for party in parties) if timer is not None]
    left = min(timers + [now() + LONGEST_WAIT]) - now()
    sockets = [bound for party in parties for bound in party.sockets()]
    select.select(sockets, [], [], max(left, 0) / 1e9)


def turn_all(parties):
    """Each party has its turn; where none has more to do, they wait."""
    if not any([party.turn() for party in parties]):
        wait(parties)


def move(parties, sender, receiver, stream, data):
    """Moves bytes from one endpoint to the other on a stream: what came."""
    came, written, finished = bytearray(), 0, False
    sender.writable.add(stream)
    begun = now()
    while not receiver.read(stream, came.extend):
        written = sender.write(stream, data, written)
        if written == len(data) and not finished:
            sender.connection.finish(stream)
            finished = True
        turn_all(parties)
    seconds, names = (now() - begun) / 1e9, (NAMES[sender.side], NAMES[receiver.side])
    print(f"{names[0]} to {names[1]}: {len(came)} bytes in {seconds:.1f} seconds")
    return bytes(came)


def there_and_back(parties, client, server, data):
    """Moves bytes to the server and back: whether they came as they went."""
    stream = client.connection.open(BI)
    there = move(parties, client, server, stream, data)
    back = move(parties, server, client, stream, there)
    digests = [hashlib.sha256(each).hexdigest() for each in (data, there, back)]
    for name, digest in zip(("sent", "there", "back"), digests):
        print(f"{name}: {digest}")
    return len(set(digests)) == 1


def tell_figures(endpoint):
    """Says how many packets an endpoint lost, how long a round trip took, and what it refused."""
    figures = endpoint.connection.stats()
    lost, sent, rtt = (figures[name] for name in ("lost_packets", "sent_packets", "rtt"))
    path = f"{lost} of {sent} packets lost, a round trip takes {rtt / 1e6:.2f} ms"
    print(f"{NAMES[endpoint.side]}: {path}, {endpoint.unseal.refused()} datagrams refused")


def take_leave(parties, client, server):
    """The client closes the connection, and the server hears of it, or of nothing more."""
    server.parting = True
    client.close(0, b"moved")
    while server.lost is None or not client.is_drained():
        turn_all(parties)
    heard = "of it" if server.lost == Lost.PEER_APPLICATION else "nothing more"
    print(f"the client closed the connection, and the server heard {heard}")


def contents(path):
    """The bytes of a file."""
    try:
        with open(path, "rb") as file:
            return file.read()
    except OSError as error:
        raise Failed(f"{path}: {error.strerror}")


def two_endpoints():
    """A client and a server, which aren't made yet."""
    print(library().fh_build().decode())
    secret = secrets.token_bytes(hello.SECRET)
    return [Endpoint(side, secret, bound_socket()) for side in (CLIENT, SERVER)]


def run(parties, client, server, data):
    """Moves bytes there and back between two endpoints that were made: the exit status."""
    same = there_and_back(parties, client, server, data)
    tell_figures(client)
    tell_figures(server)
    take_leave(parties, client, server)
    print("the digests are the same" if same else "THE DIGESTS DIFFER")
    return 0 if same else 1


def transfer(path):
    """Moves this file there and back: the exit status."""
    data = contents(path)
    client, server = two_endpoints()
    try:
        client.begin(server.hello, server.socket.getsockname())
        server.begin(client.hello, client.socket.getsockname())
        return run([client, server], client, server, data)
    finally:
        client.free()
        server.free()


def main(name, usage, least, most, act):
    """Acts on the arguments, of which there are so many. What fails is said in one line."""
    words = sys.argv[1:]
    if words in (["-h"], ["--help"]):
        print(usage.strip())
        return 0
    if not least <= len(words) <= most:
        print(usage.strip(), file=sys.stderr)
        return 2
    try:
        return act(*words)
    except (Failed, Missing, Error) as failed:
        print(f"{name}: {failed}", file=sys.stderr)
        return getattr(failed, "status", 1)
    except KeyboardInterrupt:
        print(f"{name}: interrupted", file=sys.stderr)
        return 130


if __name__ == "__main__":
    sys.exit(main("transfer.py", __doc__, 1, 1, transfer))
