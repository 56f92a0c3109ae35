#!/usr/bin/env python3
"""Draws what one endpoint of a qlog sends, as an SVG on standard output.

    python3 examples/qlog.py SCRIPT | python3 examples/plot.py [--server] [TITLE]

Above stand the bytes in flight, the congestion window and the losses, below the size of each
datagram, over the time. Sizes and times are those of the qlog. The others are reckoned from it by
the rules of docs/RECOVERY.md, beside the code: a datagram is lost by number or by time as ACK frames
come, and the window is that of NewReno as it is configured at first. A qlog doesn't say which polls
gave nothing: so an endpoint counts as having had no more to send where its last ack-eliciting
datagram was no full one. ECN marks don't count.
"""
import json
import sys
from xml.sax.saxutils import escape

SILENT = {"padding", "ack", "connection_close"}
WIDE, LEFT, RIGHT, TOP, GAP = 820, 66, 18, 64, 34
HIGH, LOW = 230, 120


class Sender:
    """One endpoint, as its packets and the ACK frames that came show it."""

    def __init__(self):
        self.sent = {}  # What is tracked: by number the time, the bytes, and whether it is a probe.
        self.size, self.window = 1200, 12000
        self.threshold, self.recovery, self.counted = float("inf"), None, 0
        self.smoothed, self.variation, self.latest, self.least = 333.0, 166.5, None, None
        self.largest = -1
        self.last_size = 0
        self.points = []  # The time, the bytes in flight, and the window.
        self.sizes = []  # The time, the bytes, the kind and the number of each datagram.
        self.losses = []  # The time of each loss, but for MTU probes.
        self.lost = set()  # The numbers of those that are lost.

    def flight(self):
        return sum(size for _, size, _ in self.sent.values())

    def note(self, time):
        self.points.append((time, self.flight(), self.window))

    def late(self):
        """How late a datagram may be (RFC 9002, section 6.1.2)."""
        return max(9 / 8 * max(self.smoothed, self.latest or 0), 1)

    def expire(self, time):
        """The loss timer expires, if it does up to this time."""
        below = [went for number, (went, _, _) in self.sent.items() if number < self.largest]
        if below and min(below) + self.late() <= time:
            self.judge(min(below) + self.late())
            self.note(min(below) + self.late())

    def send(self, time, number, size, frames):
        """A datagram goes."""
        self.expire(time)
        kinds = {frame["frame_type"] for frame in frames}
        probe = kinds == {"ping", "padding"} and size > self.size
        eliciting = bool(kinds - SILENT)
        self.sizes.append((time, size, "probe" if probe else "data" if eliciting else "ack", number))
        if eliciting:
            self.sent[number] = (time, size, probe)
        if eliciting and not probe:
            # Two full datagrams of the least size in a row: a black hole was found.
            self.size = 1200 if size == self.last_size == 1200 else self.size
            self.last_size = size
        self.note(time)

    def take(self, time, ranges, delay):
        """An ACK frame comes."""
        self.expire(time)
        covered = lambda number: any(low <= number <= high for low, high in ranges)
        named = [number for number in sorted(self.sent) if covered(number)]
        top = ranges[-1][1]
        if named and top in self.sent and top > self.largest:
            self.measure(time - self.sent[top][0], delay)
        self.largest = max(self.largest, top)
        limited = self.last_size < self.size and self.flight() + self.size < self.window
        for number in named:
            went, size, probe = self.sent.pop(number)
            self.acked(went, size, limited)
            if probe:
                self.resize(size)
        self.judge(time)
        self.note(time)

    def measure(self, sample, delay):
        """A round trip is measured (RFC 9002, section 5.3)."""
        first, self.latest = self.latest is None, sample
        if first:
            self.smoothed, self.variation, self.least = sample, sample / 2, sample
            return
        self.least = min(self.least, sample)
        taken = sample - min(delay, 25) if self.least + min(delay, 25) <= sample else sample
        self.variation = (3 * self.variation + abs(self.smoothed - taken)) / 4
        self.smoothed = (7 * self.smoothed + taken) / 8

    def acked(self, went, size, limited):
        """The window where a datagram is acknowledged (RFC 9002, section 7.3)."""
        if limited or self.recovery is not None and went <= self.recovery:
            return
        if self.window < self.threshold:
            self.window += size
            if self.window >= self.threshold:
                self.counted = self.window - self.threshold
            return
        self.counted += size
        if self.counted >= self.window:
            self.counted -= self.window
            self.window += self.size

    def judge(self, time):
        """What is late by number or by time is lost (RFC 9002, section 6.1)."""
        gone = [
            number for number, (went, _, _) in sorted(self.sent.items())
            if number < self.largest and (number + 3 <= self.largest or went + self.late() <= time)
        ]  # fmt: skip
        last = None
        for number in gone:
            went, size, probe = self.sent.pop(number)
            self.lost.add(number)
            if not probe:
                self.losses.append(time)
                last = went
        if last is not None and (self.recovery is None or last > self.recovery):
            self.recovery = time
            self.window = self.threshold = max(self.window // 2, 2 * self.size)
            self.counted = 0

    def resize(self, size):
        """Datagrams have another size."""
        self.size = size
        self.window = max(self.window, 2 * size)


def sender(trace):
    """What an endpoint of a qlog sent."""
    found = Sender()
    for event in trace["events"]:
        time, data = event["time"], event["data"]
        frames = data.get("frames", [])
        if event["name"] == "transport:packet_sent" and "raw" in data:
            found.send(time, data["header"].get("packet_number", -1), data["raw"]["length"], frames)
        elif event["name"] == "transport:packet_received":
            for frame in frames:
                if frame["frame_type"] == "ack":
                    found.take(time, frame["acked_ranges"], frame["ack_delay"])
    return found


# ---- the picture


def ticks(most, count):
    """Round numbers up to one, some so many."""
    step = 1
    while most / step > count:
        step = {"1": 2, "2": 2.5, "5": 2}[str(step)[0]] * step
    return [int(step * at) for at in range(int(most / step) + 1)]


class Panel:
    """A part of the picture with an axis of its own."""

    def __init__(self, top, high, start, end, most):
        self.top, self.high, self.start, self.end, self.most = top, high, start, end, most

    def x(self, time):
        return LEFT + (time - self.start) / (self.end - self.start) * (WIDE - LEFT - RIGHT)

    def y(self, value):
        return self.top + self.high * (1 - value / self.most)

    def frame(self, label, unit):
        """The axis, with lines at round numbers."""
        middle = f"translate(14 {self.top + self.high / 2:.0f})"
        yield f'<text class="l" transform="{middle} rotate(-90)">{label}</text>'
        for value in ticks(self.most, 5):
            y = self.y(value)
            yield f'<path class="g" d="M{LEFT} {y:.1f}H{WIDE - RIGHT}"/>'
            yield f'<text class="n" x="{LEFT - 6}" y="{y + 4:.1f}">{value // unit}</text>'

    def steps(self, points):
        """A line that stays where it was until the next point."""
        path, last = "", None
        for time, value in points:
            x, y = round(self.x(time)), round(self.y(value))
            if y != last:
                path += f"M{x} {y}" if last is None else f"H{x}V{y}"
            last = y
        return path + f"H{self.x(self.end):.1f}"


STYLE = (
    "text{font:12px sans-serif;fill:#222}.t{font-size:15px;font-weight:bold}"
    ".l{text-anchor:middle}.n{text-anchor:end;fill:#555}.m{text-anchor:middle;fill:#555}"
    ".g{stroke:#ddd;fill:none}.w{stroke:#c0392b;stroke-width:2;fill:none}"
    ".f{fill:#9bc4e8;stroke:#2c6ea8}.x{stroke:#111;stroke-width:1.5}"
    ".d{fill:#2c6ea8}.a{fill:#aaa}.p{fill:#e08e0b}"
)


def last_of_each(points):
    """Of points at one time the last."""
    behind = points[1:] + [(None,)]
    return [one for one, after in zip(points, behind) if after[0] != one[0]]


def key(at, y, shape, words):
    """An entry of the legend."""
    return f'<g transform="translate({at} {y})">{shape}<text x="18" y="4">{words}</text></g>'


def cross(x, y):
    return f'<path class="x" d="M{x - 4} {y - 4}l8 8m0 -8l-8 8"/>'


def drawn(found, title):
    """The picture, as lines."""
    if len(found.points) < 2:
        raise SystemExit("plot.py: this endpoint sent too little to be drawn")
    start, end = found.points[0][0], found.points[-1][0]
    span = max(end - start, 1)
    times = (start - span / 40, end + span / 40)
    most = max(max(flight, window) for _, flight, window in found.points)
    upper = Panel(TOP, HIGH, *times, 1.08 * most)
    lower = Panel(TOP + HIGH + GAP, LOW, *times, 1.1 * max(size for _, size, _, _ in found.sizes))
    bottom = lower.top + LOW
    size = f'viewBox="0 0 {WIDE} {bottom + 44}" width="{WIDE}" height="{bottom + 44}"'
    yield f'<svg xmlns="http://www.w3.org/2000/svg" {size}>'
    yield f"<style>{STYLE}</style><rect width=\"100%\" height=\"100%\" fill=\"#fff\"/>"
    yield f'<text class="t" x="{LEFT}" y="22">{escape(title)}</text>'
    yield key(LEFT, 44, '<path class="w" d="M0 0H12"/>', "congestion window")
    yield key(LEFT + 150, 44, '<rect class="f" y="-5" width="12" height="9"/>', "bytes in flight")
    yield key(LEFT + 270, 44, cross(6, 0), "lost")
    yield key(LEFT + 330, 44, '<circle class="d" cx="6" r="3"/>', "datagram")
    yield key(LEFT + 425, 44, '<circle class="p" cx="6" r="4"/>', "MTU probe")
    yield key(LEFT + 530, 44, '<circle class="a" cx="6" r="3"/>', "not ack-eliciting")
    yield from upper.frame("KB", 1000)
    yield from lower.frame("bytes a datagram", 1)
    points = last_of_each(found.points)
    flight = upper.steps([(time, size) for time, size, _ in points])
    floor = upper.y(0)
    yield f'<path class="f" d="{flight}V{floor:.1f}H{upper.x(points[0][0]):.1f}Z"/>'
    yield f'<path class="w" d="{upper.steps([(time, window) for time, _, window in points])}"/>'
    marks = []
    for time, size, kind, number in found.sizes:
        x, y = round(lower.x(time)), round(lower.y(size))
        marks.append(f'<circle class="{kind[0]}" cx="{x}" cy="{y}" r="{4 if kind == "probe" else 2}"/>')
        marks += [cross(x, y)] if number in found.lost else []
    marks += [cross(round(upper.x(time)), round(floor - 8)) for time in found.losses]
    yield from dict.fromkeys(marks)
    for value in ticks(span, 9):
        x = lower.x(start + value)
        yield f'<text class="m" x="{x:.1f}" y="{bottom + 18}">{value}</text>'
    yield f'<text class="m" x="{(LEFT + WIDE - RIGHT) / 2:.0f}" y="{bottom + 36}">milliseconds</text>'
    yield "</svg>"


def main():
    words = sys.argv[1:]
    if words in (["-h"], ["--help"]):
        print(__doc__.strip())
        return 0
    side = "server" if words[:1] == ["--server"] else "client"
    words = words[words[:1] == ["--server"] :]
    if len(words) > 1:
        print(__doc__.strip(), file=sys.stderr)
        return 2
    qlog = json.load(sys.stdin)
    trace = next(one for one in qlog["traces"] if one["vantage_point"]["type"] == side)
    print("\n".join(drawn(sender(trace), words[0] if words else qlog["title"])))
    return 0


if __name__ == "__main__":
    sys.exit(main())
