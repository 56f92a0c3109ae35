#!/usr/bin/env python3
"""Writes a script of a transfer through a network, on standard output.

    python3 examples/network.py [NAME=VALUE].. > SCRIPT

    bytes=N    how many bytes the client sends on one stream (200000)
    wait=N     how many milliseconds pass between the first of them and the others (0)
    delay=N    how long a datagram takes each way, in milliseconds (20)
    lose=N,..  which of the client's datagrams are lost, from 0 on (none)
    mtu=N      how many bytes a datagram of the client may have (65535)
    shrink=N   from which of its datagrams on that is 1200 (never)
    search=1   the client looks for a larger path MTU

It drives ./quic-run --native line by line: each datagram that an endpoint gives is delivered after
the delay or never, each timer is handled as it expires, and the server reads what comes.
`python3 examples/qlog.py` takes such a script, and examples/plot.py draws that. docs/SCRIPTS.md has
the language.
"""
import heapq
import os
import subprocess
import sys

TOP = os.path.dirname(os.path.dirname(os.path.abspath(__file__)))
DEFAULTS = {
    "bytes": 200000, "wait": 0, "delay": 20, "lose": "", "mtu": 65535, "shrink": 1 << 32, "search": 0,
}  # fmt: skip
PIECE = 50000
END = 3600 * 10**9


class Network:
    """Both endpoints, what is under way between them, and the script so far."""

    def __init__(self, options):
        program = [os.path.join(TOP, "quic-run"), "--native"]
        pipes = {"stdin": subprocess.PIPE, "stdout": subprocess.PIPE, "stderr": subprocess.DEVNULL}
        self.program = subprocess.Popen(program, text=True, bufsize=1, **pipes)
        self.options = options
        self.lost = {int(number) for number in str(options["lose"]).split(",") if number}
        self.script, self.under_way, self.time = [], [], 10**6
        self.left = options["bytes"]
        self.start = self.time + options["wait"] * 10**6

    def ask(self, line):
        """The answer to a line, behind its first two words; the line isn't kept."""
        self.program.stdin.write(line + "\n")
        self.program.stdin.flush()
        answer = self.program.stdout.readline().split()
        if not answer:
            raise SystemExit(f"network.py: `{line}` has no answer")
        return answer[2:]

    def call(self, line):
        """The same of a line that is kept."""
        self.script.append(line)
        return self.ask(line)

    def write(self):
        """The client writes as much as it may of what is left: a byte, as long as it waits."""
        waits = self.time < self.start
        while self.left and not (waits and self.left < self.options["bytes"]):
            count = 1 if waits else min(self.left, PIECE)
            answer = self.call(f"c write 0 {'00' * count}")
            taken = int(answer[0]) if answer[0].isdigit() else 0
            self.left -= taken
            if taken < count:
                return

    def arrives(self, side, number, size):
        """Whether a datagram arrives."""
        most = 1200 if number >= self.options["shrink"] else self.options["mtu"]
        return side == "s" or number not in self.lost and size <= most

    def poll(self, side):
        """An endpoint gives its datagrams, which are under way then or lost."""
        while (answer := self.call(f"{side} poll {self.time}"))[0] not in ("none", "failed"):
            number, size, mark = int(answer[0]), int(answer[1]), answer[2]
            if self.arrives(side, number, size):
                then = self.time + self.options["delay"] * 10**6
                heapq.heappush(self.under_way, (then, len(self.script), side, number, mark))

    def next(self):
        """When something happens next, if anything does before an hour has passed."""
        timers = [answer[0] for side in "cs" if (answer := self.ask(f"{side} next"))[0] != "none"]
        moments = [int(moment) for moment in timers] + [one[0] for one in self.under_way[:1]]
        moments += [self.start] if self.left and self.time < self.start else []
        return min((moment for moment in moments if moment < END), default=None)

    def turn(self):
        """What happens at a moment: datagrams arrive, timers expire, and applications go on."""
        while self.under_way and self.under_way[0][0] <= self.time:
            _, _, side, number, mark = heapq.heappop(self.under_way)
            self.call(f"{'s' if side == 'c' else 'c'} deliver {self.time} {mark} {number}")
        for side in "cs":
            timer = self.ask(f"{side} next")[0]
            if timer.isdigit() and int(timer) <= self.time:
                self.call(f"{side} timeout {self.time}")
        while len(self.call("s read 0 1000000")) == 2:
            pass
        self.write()
        for side in "cs":
            self.poll(side)

    def run(self):
        """Goes on until nothing is left to do but to be idle."""
        self.call(f"c set search {self.options['search']}")
        self.call("c set idle 0")
        self.call("s set idle 0")
        self.call("c open bi")
        self.write()
        self.poll("c")
        self.poll("s")
        while (moment := self.next()) is not None:
            self.time = max(self.time, moment)
            self.turn()
        return self.script


def main():
    options = dict(DEFAULTS)
    for word in sys.argv[1:]:
        name, _, value = word.partition("=")
        if name not in options or not value.replace(",", "").isdigit():
            print(__doc__.strip(), file=sys.stdout if word in ("-h", "--help") else sys.stderr)
            return 0 if word in ("-h", "--help") else 2
        options[name] = value if name == "lose" else int(value)
    print("\n".join(Network(options).run()))
    return 0


if __name__ == "__main__":
    sys.exit(main())
