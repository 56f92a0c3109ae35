"""What the tests of programs in Rust share: builds, certificates, servers, proxies and counts."""
import hashlib
import itertools
import os
import random
import select
import shutil
import signal
import subprocess
import sys
import threading
import time
from pathlib import Path

RUST = Path(__file__).resolve().parent
TOP = RUST.parents[1]
sys.path.insert(0, str(TOP / "examples"))
sys.dont_write_bytecode = True
import proxy  # noqa: E402

REGISTRY = Path("/usr/share/cargo/registry")
BUILT = TOP / "out" / "rust_get"
HOST = "127.0.0.1"
# Ports of loopback, each given once; the numbers behind them name files.
PORTS = itertools.count(random.randrange(20000, 40000))
# How many datagrams nobody sent, or that were altered, come to an end of a connection.
JUNK = 10_000
# What programs in Rust need, and which crates of Debian's.
TOOLS = ("/usr/bin/cargo", "/usr/bin/rustc", "openssl")
CRATES = ("rustls-0.20", "quinn-0.9", "rustls-pemfile-1")
# Where a test was started in the background SIGINT may be ignored, and then by what it starts, too.
signal.signal(signal.SIGINT, signal.default_int_handler)


def missing():
    """What isn't there that is needed, or nothing."""
    for tool in TOOLS:
        if shutil.which(tool) is None:
            return tool
    for crate in CRATES:
        if not any(REGISTRY.glob(f"{crate}*")):
            return f"{crate} in {REGISTRY}"
    return ""


def build(*packages):
    """Builds the library, if it isn't there, and these packages: whether that went well."""
    library = Path(os.environ.get("FENNELHAMMER_OUT", TOP / "out"))
    if not (library / "libfennelhammer.a").is_file():
        if subprocess.run([TOP / "quic-lib"], stdin=subprocess.DEVNULL).returncode != 0:
            return False
    return all(cargo("build", package) for package in packages)


def cargo(verb, package):
    """Builds or tests a package with Debian's cargo: whether that went well."""
    command = ["/usr/bin/cargo", verb, "--quiet", "--offline", "--release"]
    tools = {**os.environ, "RUSTC": "/usr/bin/rustc"}
    folder = RUST / package
    words = [*command, "--target-dir", BUILT]
    ran = subprocess.run(words, cwd=folder, env=tools, capture_output=True, text=True)
    if ran.returncode != 0:
        print(ran.stdout + ran.stderr)
    return ran.returncode == 0


def digest(path):
    return hashlib.sha256(path.read_bytes()).hexdigest()


def at_port(port):
    """Whether a program is at a UDP port, how many bytes wait there, and how many datagrams found
    no room."""
    rows = [row.split() for row in Path("/proc/net/udp").read_text().splitlines()]
    for row in rows:
        if row[1].endswith(f":{port:04X}"):
            return True, int(row[4].partition(":")[2], 16), int(row[-1])
    return False, 0, 0


class Hostile(proxy.Proxy):
    """A proxy that also sends one side what nobody sent: random bytes, datagrams of the other side
    that were altered or cut short, Version Negotiation from another ID than the client's first, and
    Retry packets with a random tag. Many come at first, so that the handshake sees them."""

    junk = 0
    # To which side they come, and how many with each datagram that does, later on.
    victim, many = 0, 2

    def forward(self, side, datagram):
        for _ in range((100 if self.passed < 40 else self.many) if side == self.victim else 0):
            if self.junk < JUNK:
                self.junk += 1
                self.at[side].sendto(self.made_up(datagram), self.peers[side])
        super().forward(side, datagram)

    def made_up(self, datagram):
        """Bytes that aren't a datagram of the other side."""
        kind, changed = self.random.randrange(4), bytearray(datagram)
        if kind == 0:
            return self.random.randbytes(self.random.randrange(1, 1500))
        if kind == 1:
            return bytes(changed[: self.random.randrange(1, len(changed))])
        if kind == 2 and datagram[0] & 0x80:
            ids = datagram[5 : 7 + datagram[5] + datagram[6 + datagram[5]]]
            retry = b"\xf0\0\0\0\1" + ids + self.random.randbytes(40)
            return self.random.choice((b"\x80\0\0\0\0" + ids + b"\xff\0\0\x1d", retry))
        for _ in range(self.random.randrange(1, 4)):
            changed[self.random.randrange(len(changed))] ^= self.random.randrange(1, 256)
        return bytes(changed)


class ToServer(Hostile):
    """The same, but what nobody sent comes to the server, to which less is sent."""

    victim, many = 1, 20


class Between:
    """A proxy in a thread of its own, in front of a server."""

    def __init__(self, kind, to, *shares):
        self.port, self.over = next(PORTS), False
        sockets = [proxy.socket_at(self.port), proxy.socket_at(0)]
        self.proxy = kind(sockets, [None, (HOST, to)], *shares)
        self.thread = threading.Thread(target=self.run)

    def run(self):
        while not self.over:
            if not self.proxy.turn():
                select.select(self.proxy.sockets(), [], [], 0.002)

    def __enter__(self):
        self.thread.start()
        return self

    def __exit__(self, *_):
        self.over = True
        self.thread.join()
        for socket in self.proxy.sockets():
            socket.close()


class Server:
    """A server at a port of its own, by the words that this function gives for that, and what it
    printed once it ended: that is read at once, so that it needn't wait, or only then."""

    def __init__(self, words, reads=True, **more):
        self.port, self.said = next(PORTS), ""
        command = [str(word) for word in words(self.port)]
        pipes = {"stdout": subprocess.PIPE, "stderr": subprocess.STDOUT}
        self.process = subprocess.Popen(command, text=True, errors="replace", **pipes, **more)
        self.reader = threading.Thread(target=self.read)
        if reads:
            self.reader.start()

    def read(self):
        with self.process.stdout as printed:
            self.said = printed.read()

    def __enter__(self):
        end = time.monotonic() + 10
        while not at_port(self.port)[0] and time.monotonic() < end:
            time.sleep(0.01)
        return self

    def __exit__(self, *_):
        time.sleep(0.2)  # A close of the client's may be under way.
        self.process.send_signal(signal.SIGINT)
        self.process.wait(timeout=60)
        if self.reader.ident is None:
            self.reader.start()
        self.reader.join()


class Trial:
    """Programs, certificates, a folder of files that are served, and how many checks failed."""

    def __init__(self, top):
        self.top, self.folder, self.tried, self.failed = top, top / "files", 0, 0
        self.folder.mkdir()
        for name in ("", "other_"):
            self.certificate(name)
        for name, size in (("one", 1), ("empty", 0), ("1M", 10**6), ("10M", 10**7)):
            (self.folder / name).write_bytes(os.urandom(size))

    def pair(self):
        """A server's certificate, and its key."""
        return self.top / "cert.pem", self.top / "key.pem"

    def quinn(self, *options):
        """The words of quinn's server at a port."""
        program = BUILT / "release" / "quinn_peer"
        return lambda port: [program, "serve", port, *self.pair(), self.folder, *options]

    def certificate(self, name):
        key, cert = self.top / f"{name}key.pem", self.top / f"{name}cert.pem"
        words = "req -x509 -newkey ec -pkeyopt ec_paramgen_curve:P-256 -nodes -days 30 -subj /CN=x"
        added = "-addext subjectAltName=DNS:localhost -addext basicConstraints=critical,CA:FALSE"
        command = ["openssl", *words.split(), *added.split(), "-keyout", key, "-out", cert]
        subprocess.run(command, check=True, capture_output=True)

    def check(self, right, what):
        self.tried += 1
        if not right:
            self.failed += 1
        print(f"{'' if right else 'FAILED: '}{what}", flush=True)

    def get(self, port, name, cert="cert.pem", host="localhost", **more):
        """Runs `get`: its status, its line, and the file where it was put."""
        file = self.top / f"{next(PORTS)}.got"
        words = [self.top / cert, host, str(port), f"/{name}", file]
        command = [BUILT / "release" / "get", *words]
        ran = subprocess.run(command, capture_output=True, text=True, timeout=200, **more)
        return ran.returncode, (ran.stdout + ran.stderr).strip(), file
