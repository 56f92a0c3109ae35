#!/usr/bin/env python3
"""Tries each call of fennelhammer.py, at two endpoints that hand each other their datagrams.

    python3 examples/fennelhammer_test.py
"""
import unittest

from fennelhammer import BI, CLIENT, SERVER, UNI, Blocked, Code, Connection, Error, EventKind, Lost
from fennelhammer import Refused, Seal, SealCode, Settings, State, expand, library

IDS = (b"clients.", b"servers.")
SECRET = b"s" * 32


class Pair:
    """Two endpoints, their keys, and the time."""

    def __init__(self, **fields):
        settings = Settings(**fields)
        words = settings.parameters(), 0, settings
        self.ends = [Connection(CLIENT, *IDS, *words), Connection(SERVER, *IDS[::-1], *words)]
        sides = (True, False)
        self.seals = [Seal(SECRET, client, True) for client in sides]
        self.unseals = [Seal(SECRET, client, False) for client in sides]
        self.now = 0

    def __enter__(self):
        return self

    def __exit__(self, *_):
        for each in self.ends + self.seals + self.unseals:
            each.free()
            each.free()

    def pass_on(self, side):
        """Hands the other endpoint all that one sends, sealed on the way: how many datagrams."""
        count = 0
        while (datagram := self.ends[side].poll(self.now)) is not None:
            clear, ecn = bytes(datagram), self.ends[side].ecn
            self.seals[side](datagram)
            assert datagram[13:] != clear[13:]
            self.unseals[side](datagram)
            assert datagram == clear and self.ends[1 - side].would_open(datagram)
            assert self.ends[1 - side].receive(self.now, datagram, ecn) == 0
            count += 1
        return count

    def settle(self):
        """Lets both say all that they have to say."""
        for _ in range(20):
            self.now += 5_000_000
            for end in self.ends:
                if (end.next_timeout() or self.now + 1) <= self.now:
                    end.timeout(self.now)
            self.pass_on(CLIENT)
            self.pass_on(SERVER)


class Calls(unittest.TestCase):
    def fails(self, code, call, *words):
        """The call raises this error, which is given."""
        with self.assertRaises(Error) as raised:
            call(*words)
        self.assertEqual(raised.exception.code, code)
        return raised.exception

    def test_streams(self):
        with Pair() as pair:
            client, server = pair.ends
            stream = client.open(BI)
            client.set_priority(stream, -3)
            self.assertEqual(client.write(stream, b"hello"), 5)
            self.assertEqual(client.write(stream, bytearray(b"!")), 1)
            client.finish(stream)
            self.assertIsNone(server.accept(BI))
            pair.settle()
            self.assertIn((EventKind.OPENED, BI), [(it.kind, it.dir) for it in server.events()])
            self.assertEqual(server.accept(BI), stream)
            self.assertEqual(server.read(stream), (b"hello!", True))
            self.fails(Code.CLOSED_STREAM, server.read, stream)
            pair.settle()
            events = [(event.kind, event.stream) for event in client.events()]
            self.assertIn((EventKind.FINISHED, stream), events)
            self.assertGreater(client.stats()["udp_tx_datagrams"], 0)

    def test_codes(self):
        with Pair() as pair:
            client, server = pair.ends
            one, two = client.open(UNI), client.open(UNI)
            client.write(one, b"x"), client.write(two, b"x")
            pair.settle()
            client.reset(one, 11), server.stop(two, 12)
            pair.settle()
            self.assertEqual(self.fails(Code.RESET, server.read, one).peers, 11)
            self.assertEqual(self.fails(Code.STOPPED, client.write, two, b"y").peers, 12)
            self.assertIn((EventKind.STOPPED, 12), [(it.kind, it.code) for it in client.events()])

    def test_handshake_done(self):
        with Pair() as pair:
            client, server = pair.ends
            server.handshake_done()
            self.fails(Code.AGAIN, server.handshake_done)
            self.fails(Code.CLIENT, client.handshake_done)
            pair.settle()
            confirmed = EventKind.HANDSHAKE_CONFIRMED
            self.assertIn(confirmed, [event.kind for event in client.events()])
            self.assertEqual(list(server.events()), [])
        with Pair() as pair:
            pair.ends[SERVER].close(0, 0)
            self.fails(Code.NOT_OPEN, pair.ends[SERVER].handshake_done)

    def test_own_ids(self):
        with Pair() as pair:
            client, server = pair.ends
            own = client.own_ids()
            self.assertEqual((own[0].sequence, own[0].id, own[0].reset_token), (0, IDS[0], None))
            self.assertEqual([len(each.reset_token) for each in own[1:]], [16] * (len(own) - 1))
            self.assertTrue(client.ids_changed())
            self.assertFalse(client.ids_changed())
            self.fails(Code.NONE, server.use_next_id)
            pair.settle()
            server.use_next_id()
            pair.settle()
            self.assertTrue(client.ids_changed())
            later = client.own_ids()
            self.assertEqual(later[:-1], own[1:])
            self.assertEqual(later[-1].sequence, len(own))

    def test_first_sample(self):
        # RFC 9002, sections 5.3 and 6.2.1: the round trip, four variations and the peer's 25 ms.
        with Pair(first_rtt=20_000_000, first_rtt_variation=10_000_000) as pair:
            client = pair.ends[CLIENT]
            client.ping()
            self.assertIsNotNone(client.poll(0))
            self.assertEqual(client.stats()["rtt"], 20_000_000)
            self.assertEqual(client.stats()["min_rtt"], 20_000_000)
            self.assertEqual(client.next_timeout(), 85_000_000)
        minute = 60_000_000_000
        self.assertEqual(Settings(first_rtt=1).wrong(), "first_rtt_variation")
        self.assertEqual(Settings(first_rtt=minute + 1).wrong(), "first_rtt")
        self.assertIsNone(Settings(first_rtt=minute, first_rtt_variation=minute).wrong())

    def test_unordered(self):
        with Pair() as pair:
            client, server = pair.ends
            stream = client.open(UNI)
            client.write(stream, b"hello")
            client.finish(stream)
            pair.settle()
            self.assertEqual(server.read_unordered(stream), (b"hello", 0, False))
            self.assertEqual(server.read_unordered(stream)[::2], (b"", True))

    def test_blocked(self):
        with Pair(stream_receive_window=4) as pair:
            client, server = pair.ends
            stream = client.open(UNI)
            self.assertEqual(client.write(stream, b"hello"), 4)
            with self.assertRaises(Blocked):
                client.write(stream, b"o")
            pair.settle()
            self.assertEqual(server.read(stream), (b"hell", False))
            pair.settle()
            events = [(event.kind, event.stream) for event in client.events()]
            self.assertIn((EventKind.WRITABLE, stream), events)

    def test_messages(self):
        with Pair() as pair:
            client, server = pair.ends
            self.fails(Code.TOO_LARGE, client.send_message, bytes(client.max_message() + 1))
            client.send_message(b"one"), client.send_message(b"", drop_older=True)
            pair.settle()
            self.assertIn(EventKind.MESSAGE, [event.kind for event in server.events()])
            messages = [server.receive_message() for _ in range(3)]
            self.assertEqual(messages, [b"one", b"", None])

    def test_close(self):
        with Pair() as pair:
            client, server = pair.ends
            client.ping()
            pair.settle()
            self.assertEqual(client.state(), State.OPEN)
            client.close(pair.now, 5, b"bye")
            self.assertEqual((client.state(), pair.pass_on(CLIENT)), (State.CLOSING, 1))
            (lost,) = [event for event in server.events() if event.kind == EventKind.LOST]
            self.assertEqual((lost.reason, lost.code, lost.text), (Lost.PEER_APPLICATION, 5, "bye"))
            while (deadline := client.next_timeout()) is not None:
                client.timeout(deadline)
            self.assertEqual(client.state(), State.DRAINED)

    def test_refusals(self):
        self.assertEqual(Settings(send_fairness=2).wrong(), "send_fairness")
        self.assertIsNone(Settings().wrong())
        self.assertRaises(TypeError, Settings, no_such_setting=1)
        parameters = Settings().parameters()
        self.fails(Code.ID_LENGTH, Connection, CLIENT, b"short", IDS[1], parameters, 0)
        self.fails(Code.PARAMETERS, Connection, CLIENT, IDS[0], IDS[1], b"\1\2", 0)
        self.fails(Code.SETTING, Settings(send_fairness=2).parameters)
        with Connection(CLIENT, *IDS, parameters, 0) as connection:
            self.fails(Code.INVALID, connection.write, 1 << 62, b"x")
            self.fails(Code.CLOSED_STREAM, connection.finish, 4)
            self.assertEqual(connection.receive(0, bytearray(b"@")), 1)
        self.assertIn(b"proved", library().fh_build())

    def test_seals(self):
        secret = "9ac312a7f877468ebe69422748ad00a15443f18203a07d6060f688f30f21632b"  # A.5
        updated = expand(bytes.fromhex(secret), b"quic ku")
        self.assertEqual(updated.hex()[:16], "1223504755036d55")
        with Seal(SECRET, True, False) as unseal:
            for size, code in ((28, SealCode.SHORT), (99, SealCode.REFUSED)):
                with self.assertRaises(Refused) as raised:
                    unseal(bytearray(size))
                self.assertEqual(raised.exception.code, code)
            self.assertEqual(unseal.refused(), 1)
        self.assertRaises(ValueError, Seal, b"short", True, True)

    def test_numbers_out_of_range(self):
        for value in (-1, 1 << 64):
            self.assertRaises(ValueError, Settings, max_idle_timeout_ms=value)
        with Pair() as pair:
            client, now = pair.ends[CLIENT], pair.now
            stream = client.open(BI)
            for call, *words in (
                (client.write, stream + (1 << 64), b"x"),
                (client.open, 1 << 32),
                (client.set_priority, stream, 1 << 31),
                (client.close, now, -1),
                (client.poll, -1),
                (client.receive, now, bytearray(b"@"), 1 << 32),
            ):
                self.assertRaises(ValueError, call, *words)
            self.assertEqual(client.state(), State.OPEN)

    def test_freed(self):
        with Pair() as pair:
            client, seal = pair.ends[CLIENT], pair.seals[CLIENT]
            datagram = bytearray(99)
        for call, *words in (
            (client.receive, 0, datagram),
            (client.poll, 0),
            (client.would_open, datagram),
            (client.next_timeout,),
            (client.timeout, 0),
            (client.events().__next__,),
            (client.lost_text,),
            (client.open, BI),
            (client.accept, BI),
            (client.write, 0, b"x"),
            (client.finish, 0),
            (client.reset, 0, 0),
            (client.stop, 0, 0),
            (client.set_priority, 0, 0),
            (client.read, 0),
            (client.read_unordered, 0),
            (client.send_message, b"x"),
            (client.receive_message,),
            (client.max_message,),
            (client.ping,),
            (client.close, 0, 0),
            (client.state,),
            (client.stats,),
            (seal, datagram),
            (seal.refused,),
        ):
            with self.assertRaisesRegex(ValueError, "was freed"):
                call(*words)


if __name__ == "__main__":
    unittest.main()
