"""Endpoints of QUIC connections, by the library that ./quic-lib builds (out/libfennelhammer.so),
and packet protection for them, by the one that examples/build builds (out/libfh_seal.so).

    with Connection(CLIENT, own_id, peer_id, peer_parameters, now) as connection:
        stream = connection.open(BI)
        connection.write(stream, b"hello")
        datagram = connection.poll(now)

Out of the `with` an endpoint is freed. out/fennelhammer.h says what each call does; here a negative
answer is an exception, of which Blocked is the one to expect. A number that C has no room for is a
ValueError, and so is a call of what was freed. Times are nanoseconds. One connection is used by one
thread at a time. The environment variable FENNELHAMMER_OUT names another folder than out/.
"""
import ctypes
import enum
import os
import secrets
from ctypes import POINTER, byref, c_char_p, c_int, c_int32, c_int64, c_size_t, c_uint32, c_uint64
from ctypes import c_void_p
from typing import NamedTuple

TOP = os.path.dirname(os.path.dirname(os.path.abspath(__file__)))
OUT = os.environ.get("FENNELHAMMER_OUT", os.path.join(TOP, "out"))
CLIENT, SERVER = 0, 1
BI, UNI = 0, 1
NEVER = (1 << 64) - 1
DATAGRAM_MAX = 65527
PIECE = 65536  # The most bytes of a read.
OWN_IDS_MAX = 8  # The most own connection IDs that live at once.


class Missing(Exception):
    """A library isn't there, or can't be loaded."""


class Code(enum.IntEnum):
    """Why a call didn't do what it was asked for: fh_error."""

    INVALID = -1
    ROOM = -2
    MEMORY = -3
    FAILED = -4
    SIZE = -5
    SETTING = -6
    SEED = -7
    ID_LENGTH = -8
    PARAMETERS = -9
    DATAGRAM_SIZE = -10
    WINDOW = -11
    KEY_LIMIT = -12
    NONE = -13
    BLOCKED = -14
    CLOSED_STREAM = -15
    STOPPED = -16
    RESET = -17
    ORDER = -18
    TOO_LARGE = -19
    DISABLED = -20
    UNSUPPORTED = -21
    CLOSED = -22
    CLIENT = -23
    AGAIN = -24
    NOT_OPEN = -25


class Error(Exception):
    """A call wasn't done, and why: `code` is a Code, and `peers` the peer's code, of STOPPED and
    RESET."""

    def __init__(self, code, peers=None):
        super().__init__(library().fh_error_text(code).decode())
        self.code, self.peers = Code(code), peers


class Blocked(Error):
    """A limit leaves no room now, nothing is there to be read, or the endpoint isn't open."""


class EventKind(enum.IntEnum):
    """What happened: fh_event_kind."""

    OPENED = 1
    READABLE = 2
    WRITABLE = 3
    FINISHED = 4
    STOPPED = 5
    AVAILABLE = 6
    MESSAGE = 7
    LOST = 8
    HANDSHAKE_CONFIRMED = 9


class Lost(enum.IntEnum):
    """Why a connection is lost: fh_lost."""

    APPLICATION = 1
    PEER_APPLICATION = 2
    PEER_TRANSPORT = 3
    IDLE = 4
    PIECES = 5
    KEY_LIMIT = 6
    NUMBER_LIMIT = 7
    TRANSPORT = 8


class State(enum.IntEnum):
    """Whether an endpoint is open: fh_state."""

    OPEN = 0
    CLOSING = 1
    DRAINED = 2
    FAILED = 3


class Event(NamedTuple):
    """An event. What its kind doesn't name is 0, None or empty."""

    kind: EventKind
    stream: int
    dir: int
    code: int
    reason: Lost
    text: str


class OwnId(NamedTuple):
    """An own connection ID, and the token by which a stateless reset of it is known, or None."""

    sequence: int
    id: bytes
    reset_token: bytes


def structure(name, fields):
    """A structure of unsigned numbers of 64 bits."""
    kinds = [(field, c_uint64) for field in fields.split()]
    return type(name, (ctypes.Structure,), {"_fields_": kinds})


Numbers = structure(
    "Numbers",
    """size receive_window stream_receive_window send_window max_concurrent_bidi_streams
    max_concurrent_uni_streams send_fairness max_idle_timeout_ms keep_alive_interval
    datagram_receive_buffer_size datagram_send_buffer_size initial_mtu min_mtu mtu_discovery
    mtu_upper_bound mtu_minimum_change mtu_interval mtu_black_hole_cooldown pad_to_mtu
    packet_threshold time_threshold_numerator time_threshold_denominator initial_rtt
    first_rtt first_rtt_variation
    persistent_congestion_threshold initial_window loss_reduction_numerator
    loss_reduction_denominator ack_frequency_support ack_frequency ack_eliciting_threshold
    ack_max_delay ack_reordering_threshold address_validated confidentiality_limit
    integrity_limit""",
)
RawEvent = structure("RawEvent", "kind stream dir code reason text_len")
Stats = structure(
    "Stats",
    """udp_tx_datagrams udp_tx_bytes udp_rx_datagrams udp_rx_bytes rtt min_rtt cwnd current_mtu
    sent_packets lost_packets lost_bytes congestion_events sent_plpmtud_probes lost_plpmtud_probes
    black_holes_detected dropped_too_short dropped_not_short dropped_fixed_bit dropped_unknown_id
    dropped_not_opened dropped_key_phase dropped_duplicate dropped_closing dropped_drained
    dropped_failed""",
)

class RawId(ctypes.Structure):
    """fh_own_id."""

    _fields_ = [
        ("sequence", c_uint64),
        ("has_reset_token", c_uint64),
        ("id", ctypes.c_uint8 * 8),
        ("reset_token", ctypes.c_uint8 * 16),
    ]


# The calls of a connection: their answers, and what they take behind it.
OUT_U64, OUT_U32 = POINTER(c_uint64), POINTER(c_uint32)
CALLS = {
    "fh_free": (None, []),
    "fh_receive": (c_int, [c_uint64, c_uint64, c_uint32, c_void_p, c_size_t]),
    "fh_poll": (c_int64, [c_uint64, c_void_p, c_size_t, OUT_U64, OUT_U32]),
    "fh_max_datagram_size": (c_size_t, []),
    "fh_timeout": (c_int, [c_uint64]),
    "fh_next_timeout": (c_uint64, []),
    "fh_would_open": (c_int, [c_uint64, c_void_p, c_size_t]),
    "fh_next_event": (c_int, [POINTER(RawEvent)]),
    "fh_ids_changed": (c_int, []),
    "fh_own_ids": (c_int64, [c_void_p, c_size_t]),
    "fh_lost_text": (c_int64, [c_void_p, c_size_t]),
    "fh_open": (c_int64, [c_uint32]),
    "fh_accept": (c_int64, [c_uint32]),
    "fh_write": (c_int64, [c_uint64, c_void_p, c_size_t, OUT_U64]),
    "fh_finish": (c_int, [c_uint64, OUT_U64]),
    "fh_reset": (c_int, [c_uint64, c_uint64]),
    "fh_stop": (c_int, [c_uint64, c_uint64]),
    "fh_set_priority": (c_int, [c_uint64, c_int32]),
    "fh_read": (c_int64, [c_uint64, c_void_p, c_size_t, OUT_U64, OUT_U32, OUT_U64]),
    "fh_read_unordered": (c_int64, [c_uint64, c_void_p, c_size_t, OUT_U64, OUT_U32, OUT_U64]),
    "fh_send_message": (c_int, [c_char_p, c_size_t, c_uint32]),
    "fh_receive_message": (c_int64, [c_void_p, c_size_t]),
    "fh_max_message": (c_int64, []),
    "fh_ping": (None, []),
    "fh_handshake_done": (c_int, []),
    "fh_use_next_id": (c_int, []),
    "fh_close": (c_int, [c_uint64, c_uint64, c_char_p, c_size_t]),
    "fh_get_state": (c_int, []),
    "fh_get_stats": (c_int, [POINTER(Stats), c_size_t]),
}
# And the calls of no connection.
FREE_CALLS = {
    "fh_error_text": (c_char_p, [c_int64]),
    "fh_build": (c_char_p, []),
    "fh_settings_default": (c_int, [POINTER(Numbers), c_size_t]),
    "fh_wrong_setting": (c_int64, [POINTER(Numbers)]),
    "fh_parameters": (c_int64, [POINTER(Numbers), c_void_p, c_size_t]),
    "fh_new": (
        c_int,
        [POINTER(Numbers), c_uint32]
        + [c_char_p, c_size_t] * 3
        + [c_uint64, c_char_p, c_size_t, c_uint64, POINTER(c_void_p)],
    ),
}
SEAL_CALLS = {
    "fh_seal_new": (
        c_void_p,
        [c_int, c_char_p, c_size_t, ctypes.c_bool, ctypes.c_bool, c_size_t],
    ),
    "fh_seal_free": (None, [c_void_p]),
    "fh_seal_datagram": (c_int, [c_void_p, c_void_p, c_size_t]),
    "fh_seal_open_datagram": (c_int, [c_void_p, c_void_p, c_size_t]),
    "fh_seal_sealed": (c_uint64, [c_void_p]),
    "fh_seal_refused": (c_uint64, [c_void_p]),
    "fh_seal_expand": (
        c_int,
        [c_int, c_char_p, c_size_t, c_char_p, c_char_p, c_size_t, c_void_p, c_size_t],
    ),
}
LOADED = {}
# What numbers of C can be: ctypes would cut others without a word.
BOUNDS = {
    c_uint32: (0, (1 << 32) - 1),
    c_uint64: (0, (1 << 64) - 1),
    c_int32: (-(1 << 31), (1 << 31) - 1),
    c_int64: (-(1 << 63), (1 << 63) - 1),
}


def bounded(name, kind, value):
    """A number for what has this name, which is one of this kind."""
    least, most = BOUNDS[kind]
    if not least <= value <= most:
        raise ValueError(f"{name}: {value} isn't from {least} to {most}")
    return value


def checked(function, kinds):
    """A function that refuses numbers that aren't of these kinds of its arguments."""
    numbers = [(at, kind) for at, kind in enumerate(kinds) if kind in BOUNDS]

    def call(*words):
        for at, kind in numbers:
            bounded(function.__name__, kind, words[at])
        return function(*words)

    return call


def load(name, calls, how):
    """A library of the folder OUT, loaded once, whose functions know what they take."""
    if name not in LOADED:
        path = os.path.join(OUT, name)
        if not os.path.exists(path):
            raise Missing(f"there is no {os.path.relpath(path)}: {how} makes it")
        loaded = ctypes.CDLL(path)
        for call, (answer, arguments) in calls.items():
            function = getattr(loaded, call)
            function.restype, function.argtypes = answer, arguments
            setattr(loaded, call, checked(function, arguments))
        LOADED[name] = loaded
    return LOADED[name]


def library():
    """The library of endpoints."""
    of_connections = {call: (at, [c_void_p, *arguments]) for call, (at, arguments) in CALLS.items()}
    return load("libfennelhammer.so", {**FREE_CALLS, **of_connections}, "./quic-lib")


def seals():
    """The library of packet protection."""
    return load("libfh_seal.so", SEAL_CALLS, "examples/build")


def taken(answer, peers=None):
    """An answer that is no error."""
    if answer == Code.BLOCKED:
        raise Blocked(answer)
    if answer < 0:
        code = peers.value if answer in (Code.STOPPED, Code.RESET) and peers else None
        raise Error(answer, code)
    return answer


def room_of(data):
    """A bytearray as an argument that a call writes to."""
    return (ctypes.c_char * len(data)).from_buffer(data)


class Settings:
    """What an endpoint is configured with: the fields of fh_settings, with their defaults unless
    they are given here."""

    def __init__(self, **fields):
        self.numbers = Numbers()
        taken(library().fh_settings_default(byref(self.numbers), ctypes.sizeof(Numbers)))
        for name, value in fields.items():
            if name == "size" or not hasattr(self.numbers, name):
                raise TypeError(f"there is no setting {name}")
            setattr(self.numbers, name, bounded(name, c_uint64, value))

    def wrong(self):
        """The name of the first field that is out of its range, or None."""
        at = library().fh_wrong_setting(byref(self.numbers))
        return Numbers._fields_[at // 8][0] if at > 0 else None

    def parameters(self):
        """The transport parameters that an endpoint with these settings tells its peer."""
        room = bytearray(256)
        return bytes(room[: taken(library().fh_parameters(self.numbers, room_of(room), len(room)))])


class Handle:
    """What a library made, to be used in a `with`, behind which it is freed."""

    def __init__(self, made, release):
        self.made, self.release = made, release

    def __enter__(self):
        return self

    def __exit__(self, *_):
        self.free()

    def free(self):
        """Lets it go; a second time it does nothing."""
        made, self.made = self.made, None
        if made:
            self.release(made)

    @property
    def raw(self):
        """The pointer to it, until it is freed."""
        if not self.made:
            raise ValueError(f"this {type(self).__name__} was freed")
        return self.made


class Connection(Handle):
    """An endpoint of a connection, to be used in a `with`, behind which it is freed."""

    def __init__(self, side, own_id, peer_id, parameters, now, settings=None, peer_address=0):
        self.library, self.peer_address = library(), peer_address
        made, seed = c_void_p(), secrets.token_bytes(32)
        numbers = (settings or Settings()).numbers
        three = [(each, len(each)) for each in (own_id, peer_id, parameters)]
        words = [word for pair in three for word in pair]
        last = (peer_address, seed, len(seed), now, byref(made))
        taken(self.library.fh_new(numbers, side, *words, *last))
        super().__init__(made, self.library.fh_free)
        self.room = bytearray(max(PIECE, self.library.fh_max_datagram_size(self.raw)))
        self.at, self.size = room_of(self.room), len(self.room)
        self.word, self.flag, self.code = c_uint64(), c_uint32(), c_uint64()
        self.to, self.mark = c_uint64(), c_uint32()
        self.raw_event = RawEvent()

    def receive(self, now, datagram, ecn=0, address=None):
        """Hands in a datagram, a bytearray, which is changed, and which came from an address, the
        peer's first one by default. Gives 0 where it was taken, and else a number of fh_dropped."""
        call, came = self.library.fh_receive, self.peer_address if address is None else address
        return taken(call(self.raw, now, came, ecn, room_of(datagram), len(datagram)))

    def poll(self, now):
        """The next datagram to be sent, as a bytearray, or None. `address` says then to which
        address to send it, and `ecn` with which ECN codepoint."""
        call = self.library.fh_poll
        size = taken(call(self.raw, now, self.at, self.size, byref(self.to), byref(self.mark)))
        return self.room[:size] if size else None

    @property
    def address(self):
        """The address to which the datagram goes that poll gave last."""
        return self.to.value

    @property
    def ecn(self):
        """The ECN codepoint of the datagram that poll gave last."""
        return self.mark.value

    def would_open(self, datagram, address=None):
        """Whether a datagram would open here that comes from an address, the peer's first one by
        default: a copy of it is tried."""
        copy, came = room_of(bytearray(datagram)), self.peer_address if address is None else address
        return bool(self.library.fh_would_open(self.raw, came, copy, len(datagram)))

    def ids_changed(self):
        """Whether own connection IDs were issued or retired since this was asked last."""
        return bool(self.library.fh_ids_changed(self.raw))

    def own_ids(self):
        """The own connection IDs that live: datagrams with these bytes behind the first are for
        this endpoint. Of one that has failed they say nothing: take its IDs out."""
        room = (RawId * OWN_IDS_MAX)()
        count = taken(self.library.fh_own_ids(self.raw, room, len(room)))
        own = room[:count]
        tokens = [bytes(each.reset_token) if each.has_reset_token else None for each in own]
        return [OwnId(each.sequence, bytes(each.id), token) for each, token in zip(own, tokens)]

    def next_timeout(self):
        """The earliest deadline, or None."""
        deadline = self.library.fh_next_timeout(self.raw)
        return None if deadline == NEVER else deadline

    def timeout(self, now):
        """Lets the timers expire whose deadline has come."""
        taken(self.library.fh_timeout(self.raw, now))

    def events(self):
        """Takes the events that wait, one after the other."""
        event = self.raw_event
        while self.library.fh_next_event(self.raw, byref(event)):
            kind = EventKind(event.kind)
            lost = kind == EventKind.LOST
            reason, text = (Lost(event.reason), self.lost_text()) if lost else (None, "")
            yield Event(kind, event.stream, event.dir, event.code, reason, text)

    def lost_text(self):
        """What more is said of why the connection is lost."""
        size = taken(self.library.fh_lost_text(self.raw, self.at, self.size))
        return self.room[:size].decode(errors="replace")

    def open(self, dir):
        """Opens a stream: its ID."""
        return taken(self.library.fh_open(self.raw, dir))

    def accept(self, dir):
        """Accepts a stream that the peer opened: its ID, or None."""
        stream = self.library.fh_accept(self.raw, dir)
        return None if stream == Code.NONE else taken(stream)

    def write(self, stream, data):
        """Writes bytes: how many were taken."""
        at = ctypes.cast(c_char_p(data), c_void_p) if isinstance(data, bytes) else room_of(data)
        call = self.library.fh_write
        return taken(call(self.raw, stream, at, len(data), byref(self.code)), self.code)

    def finish(self, stream):
        """Puts the FIN behind what was written."""
        taken(self.library.fh_finish(self.raw, stream, byref(self.code)), self.code)

    def reset(self, stream, code):
        """Resets a stream."""
        taken(self.library.fh_reset(self.raw, stream, code))

    def stop(self, stream, code):
        """Asks the peer to send no more on a stream."""
        taken(self.library.fh_stop(self.raw, stream, code))

    def set_priority(self, stream, priority):
        """Sets the priority of a stream."""
        taken(self.library.fh_set_priority(self.raw, stream, priority))

    def read(self, stream):
        """Reads bytes in order: these, and whether the stream ends behind them, which may be said
        only by the next read."""
        data, _offset, fin = self.read_by(self.library.fh_read, stream)
        return data, fin

    def read_unordered(self, stream):
        """Reads bytes in whatever order: these, their offset, and whether all were read."""
        return self.read_by(self.library.fh_read_unordered, stream)

    def read_by(self, call, stream):
        """What either call reads."""
        word, flag, code = byref(self.word), byref(self.flag), byref(self.code)
        size = taken(call(self.raw, stream, self.at, PIECE, word, flag, code), self.code)
        return self.room[:size], self.word.value, bool(self.flag.value)

    def send_message(self, message, drop_older=False):
        """Queues a message."""
        taken(self.library.fh_send_message(self.raw, message, len(message), drop_older))

    def receive_message(self):
        """Reads the oldest message, or None."""
        size = self.library.fh_receive_message(self.raw, self.at, self.size)
        return None if size == Code.NONE else bytes(self.room[: taken(size)])

    def max_message(self):
        """The longest message that may be sent now."""
        return taken(self.library.fh_max_message(self.raw))

    def ping(self):
        """Queues a PING."""
        self.library.fh_ping(self.raw)

    def handshake_done(self):
        """Says at a server that the handshake is done, and not before TLS is complete."""
        taken(self.library.fh_handshake_done(self.raw))

    def use_next_id(self):
        """Sends to the next connection ID that the peer gave, and retires those before it."""
        taken(self.library.fh_use_next_id(self.raw))

    def close(self, now, code, text=b""):
        """Closes the connection."""
        taken(self.library.fh_close(self.raw, now, code, text, len(text)))

    def state(self):
        """Whether the endpoint is open."""
        return State(self.library.fh_get_state(self.raw))

    def stats(self):
        """What was counted of the endpoint, by the names of fh_stats."""
        stats = Stats()
        taken(self.library.fh_get_stats(self.raw, byref(stats), ctypes.sizeof(Stats)))
        return {name: getattr(stats, name) for name, _ in Stats._fields_}


class SealCode(enum.IntEnum):
    """Why a datagram isn't sealed or opened, as fh_seal.h has it."""

    REFUSED = -1
    SHORT = -2
    LIMIT = -3
    ARGUMENT = -4
    FAILED = -5


SAID = {
    SealCode.REFUSED: "a datagram doesn't open",
    SealCode.SHORT: "a datagram is too short to be sealed",
    SealCode.LIMIT: "the keys are used up",
    SealCode.ARGUMENT: "an argument is out of its range",
    SealCode.FAILED: "out of memory",
}


class Refused(Exception):
    """A datagram doesn't open, or can't be sealed, and why: `code` is a SealCode."""

    def __init__(self, code):
        self.code = SealCode(code)
        super().__init__(SAID[self.code])


class Seal(Handle):
    """The keys of one direction (examples/fh_seal.h), to be used in a `with`. `client` says whose
    they are, and `sealing` whether they seal here or open. The suite is 0 for AES-128-GCM, 1 for
    AES-256-GCM and 2 for ChaCha20-Poly1305."""

    def __init__(self, secret, client, sealing, id_len=8, suite=0):
        self.library = seals()
        made = self.library.fh_seal_new(suite, secret, len(secret), client, sealing, id_len)
        if not made:
            raise ValueError(f"no keys of suite {suite} come from {len(secret)} bytes")
        super().__init__(c_void_p(made), self.library.fh_seal_free)
        self.call = self.library.fh_seal_datagram if sealing else self.library.fh_seal_open_datagram

    def __call__(self, datagram):
        """Seals or opens a datagram, a bytearray, in place."""
        answer = self.call(self.raw, room_of(datagram), len(datagram))
        if answer != 0:
            raise Refused(answer)

    def refused(self):
        """How many datagrams didn't open."""
        return self.library.fh_seal_refused(self.raw)


def expand(secret, label, context=b"", size=32, suite=0):
    """HKDF-Expand-Label of RFC 8446, section 7.1."""
    out = bytearray(size)
    call, length = seals().fh_seal_expand, len(secret)
    answer = call(suite, secret, length, label, context, len(context), room_of(out), size)
    if answer != 0:
        raise Refused(answer)
    return bytes(out)
