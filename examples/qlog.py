#!/usr/bin/env python3
"""Prints a script and its answers as qlog, which qvis (https://qvis.quictools.info) draws.

    python3 examples/qlog.py [--native] SCRIPT   runs the script by ./quic-run, with this option
    python3 examples/qlog.py SCRIPT ANSWERS      takes what ./quic-run printed of it

A trace for each endpoint has the datagrams that it sent and received, with their frames, its calls
of streams, and what its application was told. The stand-in keys leave payloads to be read by
`E show K`: where this program runs the script itself, it appends such a line for each datagram that
a `poll` may have given, and `settle` too, up to 64. Given the answers, it knows the frames of those
datagrams that the script shows. What `settle` sends has no time of its own, so that it stands in no
trace. docs/SCRIPTS.md has the language, and docs/WIRE.md the frames.
"""
import json
import os
import subprocess
import sys

TOP = os.path.dirname(os.path.dirname(os.path.abspath(__file__)))
SIDES = {"c": "client", "s": "server"}
OTHER = {"c": "s", "s": "c"}
BEHIND_SETTLE = 64


class Failed(Exception):
    """Why there is no qlog, in one line."""


# ---- frames


class Reader:
    """The bytes of a payload that are still to be read."""

    def __init__(self, data):
        self.data = data

    def take(self, count):
        """The next bytes."""
        if count > len(self.data):
            raise Failed("a payload ends within a frame")
        taken, self.data = self.data[:count], self.data[count:]
        return taken

    def number(self):
        """A variable-length integer (RFC 9000, section 16)."""
        first = self.take(1)[0]
        return int.from_bytes(bytes([first & 0x3F]) + self.take((1 << (first >> 6)) - 1), "big")

    def counted(self):
        """Bytes behind their count."""
        return self.take(self.number())

    def rest(self):
        return self.take(len(self.data))


def padding(reader, _):
    """PADDING: as many as stand beside one another are one frame."""
    left = reader.data.lstrip(b"\0")
    length = 1 + len(reader.data) - len(left)
    reader.data = left
    return {"frame_type": "padding", "length": length}


def ack(reader, kind):
    """ACK: ranges ascend in qlog, and descend in the frame."""
    largest, delay, count, first = (reader.number() for _ in range(4))
    ranges = [[largest - first, largest]]
    for _ in range(count):
        gap, length = reader.number(), reader.number()
        high = ranges[0][0] - gap - 2
        ranges.insert(0, [high - length, high])
    frame = {"frame_type": "ack", "ack_delay": (delay << 3) / 1000, "acked_ranges": ranges}
    if kind == 0x03:
        frame.update((name, reader.number()) for name in ("ect0", "ect1", "ce"))
    return frame


def stream(reader, kind):
    """STREAM, with an offset by bit 4, a length by bit 2, and the FIN by bit 1."""
    frame = {"frame_type": "stream", "stream_id": reader.number()}
    frame["offset"] = reader.number() if kind & 4 else 0
    data = reader.counted() if kind & 2 else reader.rest()
    frame["length"] = len(data)
    frame["fin"] = bool(kind & 1)
    return frame


def new_connection_id(reader, _):
    sequence, retire, connection_id = reader.number(), reader.number(), reader.take(reader.take(1)[0])
    return {
        "frame_type": "new_connection_id", "sequence_number": sequence, "retire_prior_to": retire,
        "connection_id": connection_id.hex(), "stateless_reset_token": reader.take(16).hex(),
    }  # fmt: skip


def close(reader, kind):
    frame = {"frame_type": "connection_close", "error_code": reader.number()}
    frame["error_space"] = "transport" if kind == 0x1C else "application"
    if kind == 0x1C:
        frame["trigger_frame_type"] = reader.number()
    frame["reason"] = reader.counted().decode(errors="replace")
    return frame


def datagram(reader, kind):
    return {"frame_type": "datagram", "length": len(reader.counted() if kind & 1 else reader.rest())}


def numbers(name, *fields, **fixed):
    """A frame of numbers alone, under these names."""

    def read(reader, _):
        return {"frame_type": name, **fixed, **{field: reader.number() for field in fields}}

    return read


def octets(name, field, count):
    """A frame of so many bytes, or of bytes behind their count."""

    def read(reader, _):
        return {"frame_type": name, field: (reader.take(count) if count else reader.counted()).hex()}

    return read


def crypto(reader, _):
    return {"frame_type": "crypto", "offset": reader.number(), "length": len(reader.counted())}


FRAMES = {
    0x00: padding,
    0x01: numbers("ping"),
    0x02: ack,
    0x03: ack,
    0x04: numbers("reset_stream", "stream_id", "error_code", "final_size"),
    0x05: numbers("stop_sending", "stream_id", "error_code"),
    0x06: crypto,
    0x07: octets("new_token", "token", None),
    **{kind: stream for kind in range(0x08, 0x10)},
    0x10: numbers("max_data", "maximum"),
    0x11: numbers("max_stream_data", "stream_id", "maximum"),
    0x12: numbers("max_streams", "maximum", stream_type="bidirectional"),
    0x13: numbers("max_streams", "maximum", stream_type="unidirectional"),
    0x14: numbers("data_blocked", "limit"),
    0x15: numbers("stream_data_blocked", "stream_id", "limit"),
    0x16: numbers("streams_blocked", "limit", stream_type="bidirectional"),
    0x17: numbers("streams_blocked", "limit", stream_type="unidirectional"),
    0x18: new_connection_id,
    0x19: numbers("retire_connection_id", "sequence_number"),
    0x1A: octets("path_challenge", "data", 8),
    0x1B: octets("path_response", "data", 8),
    0x1C: close,
    0x1D: close,
    0x1E: numbers("handshake_done"),
    0x1F: numbers("immediate_ack"),
    0x30: datagram,
    0x31: datagram,
    0xAF: numbers("ack_frequency", "sequence_number", "threshold", "delay", "reordering"),
}


def frames(payload):
    """The frames of a payload."""
    reader = Reader(payload)
    found = []
    while reader.data:
        kind = reader.number()
        if kind not in FRAMES:
            found.append({"frame_type": "unknown", "raw_frame_type": kind, "length": len(reader.rest())})
        else:
            found.append(FRAMES[kind](reader, kind))
    return found


# ---- scripts


def lines_of(text):
    """The lines of a script that are run, as words."""
    return [line.split(" ") for line in text.split("\n") if line and not line.startswith("#")]


def showing(text):
    """Lines that show each datagram that the script may have given."""
    lines = lines_of(text)
    more = BEHIND_SETTLE if any(words[0] == "settle" for words in lines) else 0
    for side in SIDES:
        polls = sum(words[:2] == [side, "poll"] for words in lines)
        yield from (f"{side} show {index}" for index in range(polls + more))


def run(text, options):
    """Runs a script, with its datagrams shown behind it: that script, and its answers."""
    shown = text if text.endswith("\n") or not text else text + "\n"
    shown += "".join(line + "\n" for line in showing(text))
    ran = subprocess.run(
        [os.path.join(TOP, "quic-run"), *options],
        input=shown.encode(errors="surrogateescape"),
        stdout=subprocess.PIPE,
    )
    if ran.returncode != 0:
        raise Failed(f"the script wasn't run to its end: status {ran.returncode}")
    return shown, ran.stdout.decode()


class Run:
    """What a script and its answers tell: the events of both endpoints, and their datagrams."""

    def __init__(self):
        self.events = {"c": [], "s": []}
        self.packets = {}  # By endpoint and index: number, size and frames, as far as they are known.
        self.ended = set()  # The endpoints that aren't open any more, as far as that is known.
        self.reasons = {}  # By endpoint: why it is lost, as its application is told in the end.

    def packet(self, side, index):
        return self.packets.setdefault((side, index), {})

    def add(self, side, time, name, data):
        self.events[side].append((time, name, data))

    def shown(self, side, words, answer):
        """`E show K`: the number and the payload of a datagram."""
        if len(answer) == 2:
            payload = b"" if answer[1] == "-" else bytes.fromhex(answer[1])
            self.packet(side, int(words[2])).update(number=int(answer[0]), frames=frames(payload))

    def closes(self, side, index):
        """Whether a datagram is known to close the connection."""
        found = self.packet(side, index).get("frames", [])
        return any(frame["frame_type"] == "connection_close" for frame in found)

    def polled(self, side, words, answer):
        """`E poll T`: which datagram goes, its size and its ECN codepoint, and its address."""
        if len(answer) >= 3:
            index = int(answer[0])
            self.packet(side, index)["size"] = int(answer[1])
            self.add(side, int(words[2]), "transport:packet_sent", (side, index))
            if self.closes(side, index):
                self.ended.add(side)

    def delivered(self, side, words, answer):
        """`E deliver T M K`: the other endpoint's datagram arrives."""
        where = (OTHER[side], int(words[4]))
        time = int(words[2])
        if answer[0] == "dropped":
            self.add(side, time, "transport:packet_dropped", (*where, answer[1]))
        elif answer[0] != "nodatagram":
            self.add(side, time, "transport:packet_received", where)
        if answer[0] == "taken" and self.closes(*where):
            self.ended.add(side)

    def refused(self, side, time, code):
        """What arrives at an endpoint closes it by an error."""
        self.ended.add(side)
        data = {"owner": "local", "connection_code": int(code)}
        self.add(side, time, "connectivity:connection_closed", data)

    def closed(self, side, words):
        """`E close T N H`: the application closes, which does nothing at an endpoint that isn't open."""
        if side in self.ended or self.reasons.get(side, "application") != "application":
            return
        self.ended.add(side)
        data = {"owner": "local", "application_code": int(words[3])}
        data["reason"] = bytes.fromhex(words[4].strip("-")).decode(errors="replace")
        self.add(side, int(words[2]), "connectivity:connection_closed", data)

    def tell(self, words, answer):
        """What is known beforehand: what datagrams carry, and why an endpoint is lost."""
        side, name = words[0], words[1]
        if name == "show":
            self.shown(side, words, answer)
        elif name == "event" and answer[0] == "lost":
            self.reasons[side] = answer[1]

    def take(self, words, answer, time):
        """Takes one line and its answer; calls that have no time stand at that of the line before."""
        side, name = words[0], words[1]
        if name == "deliver":
            self.delivered(side, words, answer)
        elif name == "poll":
            self.polled(side, words, answer)
        elif name == "close":
            self.closed(side, words)
        elif name == "write" and answer[0].isdigit():
            self.moved(side, time, words[2], int(answer[0]), "application", "transport")
        elif name in ("read", "pick") and len(answer) == 2 and answer[0].isdigit():
            count = 0 if answer[1] == "-" else len(answer[1]) // 2
            self.moved(side, time, words[2], count, "transport", "application")
        elif name == "event" and answer[0] == "lost":
            self.add(side, time, "connectivity:connection_closed", {"trigger": answer[1]})
        elif name == "event" and answer != ["none"]:
            self.add(side, time, "generic:info", {"message": "event " + " ".join(answer)})
        if name in ("deliver", "inject") and answer[0] == "closed":
            self.refused(side, time, answer[1])
        if answer[0] == "failed" or name == "state" and answer[0] != "open":
            self.ended.add(side)

    def moved(self, side, time, stream_id, length, giver, taker):
        """Bytes of a stream go between the application and the connection."""
        data = {"stream_id": int(stream_id), "length": length, "from": giver, "to": taker}
        self.add(side, time, "transport:data_moved", data)


def told(text, answers):
    """What a script and its answers tell."""
    run, time = Run(), 0
    lines = lines_of(text)
    if len(lines) != len(answers):
        raise Failed(f"the script has {len(lines)} lines to be answered, and there are {len(answers)} answers")
    told_of = [(words, answer.split(" ")) for words, answer in zip(lines, answers)]
    for words, said in told_of:
        if words[0] != "settle" and said[:2] != words[:2]:
            raise Failed(f"`{' '.join(words)}` isn't answered by `{' '.join(said)}`")
        if words[0] != "settle":
            run.tell(words, said[2:])
    for words, said in told_of:
        if words[0] == "settle":
            time = int(said[1]) if len(said) == 2 and said[1].isdigit() else time
            continue
        if words[1] in ("poll", "timeout", "deliver", "inject", "close"):
            time = int(words[2])
        run.take(words, said[2:], time)
    return run


# ---- qlog


def packet_data(packet, side):
    """A packet as qlog has it."""
    header = {"packet_type": "1RTT"}
    if "number" in packet:
        header["packet_number"] = packet["number"]
    data = {"header": header}
    if "size" in packet:
        data["raw"] = {"length": packet["size"]}
    if "frames" in packet:
        data["frames"] = packet["frames"]
    return data


def event_data(run, data):
    """What stands with an event: a packet, by its sender and index, or what is given."""
    if isinstance(data, dict):
        return data
    shown = packet_data(run.packets.get(data[:2], {}), data[0])
    if len(data) == 3:
        shown["trigger"] = data[2]
    return shown


def trace(run, side):
    """The trace of one endpoint."""
    return {
        "vantage_point": {"type": SIDES[side]},
        "common_fields": {"time_format": "relative", "reference_time": 0, "protocol_type": ["QUIC"]},
        "events": [
            {"time": time / 1e6, "name": name, "data": event_data(run, data)}
            for time, name, data in run.events[side]
        ],
    }


def contents(path):
    """The text of a file, whatever bytes its comments have."""
    try:
        with open(path, encoding="utf-8", errors="surrogateescape", newline="\n") as file:
            return file.read()
    except OSError as error:
        raise Failed(f"{path}: {error.strerror}")


def main():
    words = sys.argv[1:]
    if words in (["-h"], ["--help"]):
        print(__doc__.strip())
        return 0
    options = [word for word in words[:1] if word == "--native"]
    words = words[len(options) :]
    if len(words) not in (1, 2) or options and len(words) == 2:
        print(__doc__.strip(), file=sys.stderr)
        return 2
    try:
        text = contents(words[0])
        text, answers = (text, contents(words[1])) if len(words) == 2 else run(text, options)
        found = told(text, [line for line in answers.split("\n") if line])
    except Failed as failed:
        print(f"qlog.py: {failed}", file=sys.stderr)
        return 1
    except KeyboardInterrupt:
        print("qlog.py: interrupted", file=sys.stderr)
        return 130
    qlog = {
        "qlog_format": "JSON",
        "qlog_version": "0.3",
        "title": os.path.basename(words[0]),
        "traces": [trace(found, side) for side in SIDES],
    }
    json.dump(qlog, sys.stdout, indent=1)
    print()
    return 0


if __name__ == "__main__":
    sys.exit(main())
