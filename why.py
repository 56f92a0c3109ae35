#!/usr/bin/env python3
"""Says why a line is a bad command: what ./quic-run and ./quic-peer add to `line N: bad command`.

    python3 why.py quic-run N < SCRIPT
    python3 why.py quic-peer N < LINES

The languages are those of docs/SCRIPTS.md and docs/PEER.md. The line is judged from left to right,
and the first thing that is wrong is said.
"""
import sys

LONGEST = 1 << 20
BLANKS = "words stand one blank apart, and none stands before the first or behind the last"
MARKS = ("-", "ect0", "ect1", "ce")
TIMERS = (
    "lossdetection", "idle", "close", "keydiscard", "pathvalidation", "keepalive", "pacing",
    "pushnewcid", "maxackdelay",
)  # fmt: skip


class Bad(Exception):
    """Why a line is none of its language."""


def number(word, most, said):
    """Takes a decimal number up to the most that there may be, which is said so."""
    if not (word.isascii() and word.isdigit()):
        raise Bad(f"`{shown(word)}` isn't a decimal number")
    digits = word.lstrip("0")
    if len(digits) > 20 or int(digits or "0") > most:
        raise Bad(f"{shown(word)} is out of range: at most {said} may stand there")


def natural(word):
    number(word, (1 << 64) - 1, "2^64 - 1")


def varint(word):
    number(word, (1 << 62) - 1, "2^62 - 1")


def priority(word):
    number(word, (1 << 31) - 1, "2^31 - 1")


def switch(word):
    number(word, 1, "1")


def octets(word):
    """Takes bytes in lower-case hexadecimal, or `-` for none."""
    if word == "-":
        return
    for digit in word:
        if digit in "ABCDEF":
            raise Bad(f"`{digit}`: hexadecimal digits are in lower case")
        if digit not in "0123456789abcdef":
            raise Bad(f"`{shown(digit)}` isn't a hexadecimal digit")
    if len(word) % 2:
        raise Bad(f"{len(word)} hexadecimal digits are no whole number of bytes")


def connection_id(word):
    octets(word)
    if len(word) > 40:
        raise Bad(f"a connection ID has at most 20 bytes, and this one has {len(word) // 2}")


def one_of(*names):
    """A word that is one of these."""

    def check(word):
        if word not in names:
            raise Bad(f"`{shown(word)}` is none of {', '.join(names)}")

    return check


OPTIONS = {
    "receive_window": varint, "stream_window": varint, "send_window": natural, "bidi": varint,
    "uni": varint, "idle": varint, "messages": natural, "search": switch, "seal_limit": natural,
    "open_limit": natural, "validated": switch, "word": natural, "pcg": natural,
}  # fmt: skip
DIR = one_of("bi", "uni")
MARK = one_of(*MARKS)
SIDE = one_of("c", "s")

# The words behind each call: what they are called in the tables of the languages, and what takes
# them.
CALLS = {
    "open": [("D", DIR)],
    "accept": [("D", DIR)],
    "write": [("ID", varint), ("H", octets)],
    "finish": [("ID", varint)],
    "reset": [("ID", varint), ("N", varint)],
    "priority": [("ID", varint), ("N", priority)],
    "read": [("ID", varint), ("N", natural)],
    "pick": [("ID", varint), ("N", natural)],
    "stop": [("ID", varint), ("N", varint)],
    "send": [("H", octets)],
    "recv": [],
    "ping": [],
    "close": [("T", natural), ("N", varint), ("H", octets)],
    "use_next_id": [],
    "handshake_done": [],
    "poll": [("T", natural)],
    "timeout": [("T", natural)],
    "event": [],
    "timer": [("KIND", one_of(*TIMERS))],
    "next": [],
    "state": [],
}
OF_SCRIPTS = {
    "deliver": [("T", natural), ("M", MARK), ("K", natural)],
    "inject": [("T", natural), ("M", MARK), ("H", octets)],
    "show": [("K", natural)],
    "from": [("N", natural)],
}
OF_PEERS = {
    "params": [],
    "new": [
        ("SIDE", SIDE), ("ID", connection_id), ("PEER_ID", connection_id), ("T", natural),
        ("H", octets),
    ],
    "from": [("N", natural)],
    "receive": [("T", natural), ("M", MARK), ("H", octets)],
    "window": [],
    "stats": [],
}  # fmt: skip


def shown(text):
    """A text as it may be printed, not too long."""
    text = text.encode("unicode_escape").decode()
    return text if len(text) <= 40 else text[:37] + ".."


def text_of(line):
    """The text of a line, of which the words stand one blank apart."""
    if len(line) > LONGEST:
        raise Bad(f"it is too long: a line has {LONGEST} bytes at most")
    if line.endswith(b"\r"):
        raise Bad("it ends in a carriage return, and lines end in a line feed alone")
    try:
        text = line.decode()
    except UnicodeDecodeError:
        raise Bad("it isn't UTF-8")
    if "\t" in text:
        raise Bad("it has a tab: " + BLANKS)
    if "" in text.split(" "):
        raise Bad("it has a blank too many: " + BLANKS)
    return text


def setting(words):
    """Takes an option and its value."""
    if not words:
        raise Bad("a word is missing: the line is `set OPTION N`")
    one_of(*OPTIONS)(words[0])
    behind("set " + words[0], [("N", OPTIONS[words[0]])], words[1:])


def behind(name, wanted, words):
    """Takes the words behind this name."""
    for (_, take), word in zip(wanted, words):
        take(word)
    if len(words) != len(wanted):
        line = " ".join([name] + [what for what, _ in wanted])
        raise Bad(f"{'a word is missing' if len(words) < len(wanted) else 'a word is too many'}: "
                  f"the line is `{line}`")  # fmt: skip


def call(calls, words):
    """Takes a call and the words behind it."""
    if not words:
        raise Bad("a call is missing")
    if words[0] == "set":
        setting(words[1:])
    elif words[0] in calls:
        behind(words[0], calls[words[0]], words[1:])
    else:
        raise Bad(f"there is no call `{shown(words[0])}`")


def script_line(words):
    """Takes a line of a script: why it may be refused nevertheless."""
    if words[0] == "settle":
        behind("settle", [("T", natural)], words[1:])
    elif words[0] in (*CALLS, *OF_SCRIPTS, "set"):
        raise Bad(f"`{words[0]}` stands behind c or s, the endpoint that it is for")
    else:
        one_of("c", "s", "settle")(words[0])
        call({**CALLS, **OF_SCRIPTS}, words[1:])
        if words[1] == "set":
            return "`set` stands behind another line: options are set before all of these"
    return "an endpoint can't be made: its `seal_limit` or its `open_limit` is below 16"


def peer_line(words):
    """Takes a line that drives one endpoint: why it may be refused nevertheless."""
    if words[0] in ("c", "s"):
        raise Bad(f"`{words[0]}`: a line begins with its call, as there is one endpoint alone")
    call({**CALLS, **OF_PEERS}, words)
    if words[0] in ("set", "new"):
        return f"`{words[0]}` stands behind a `new` that was answered `ok`"
    return f"`{words[0]}` needs the endpoint, and no `new` before it was answered `ok`"


def why(take, line):
    """Why a line is a bad command."""
    try:
        return take(text_of(line).split(" "))
    except Bad as bad:
        return str(bad)


def main():
    takes = {"quic-run": script_line, "quic-peer": peer_line}
    if len(sys.argv) != 3 or sys.argv[1] not in takes or not sys.argv[2].isdigit():
        sys.exit(__doc__)
    lines = sys.stdin.buffer.read().split(b"\n")
    at = int(sys.argv[2])
    if not 0 < at <= len(lines):
        sys.exit(f"why.py: there is no line {at}")
    print(why(takes[sys.argv[1]], lines[at - 1]))


if __name__ == "__main__":
    main()
