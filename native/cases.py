"""The cases of a program: what it is to answer to what it is given."""
import shutil
import subprocess
import tempfile

SECONDS = 120  # The most that a case may take, as at the gate.
ASIDE = (".stdout", ".stderr", ".status", ".args")


class Unlike(Exception):
    """Why a build is none that may be taken, in one line."""


def wanted(path, suffix, otherwise=b""):
    """What a file beside a case says, whose name ends so; another where there is none."""
    file = path.with_name(path.name + suffix)
    return file.read_bytes() if file.is_file() else otherwise


def own_case(folder):
    """The case that the toolchain runs: the program's arguments and input, and what is wanted."""
    read = lambda name: (folder / name).read_bytes() if (folder / name).is_file() else b""
    return "of its own", read("args").decode().split("\n"), read("stdin"), read("stdout"), read("status"), None


def cases_of(folder):
    """Each case of a program."""
    yield own_case(folder)
    if (folder / "cases").is_dir():
        for path in sorted((folder / "cases").iterdir()):
            if path.suffix not in ASIDE:
                given = wanted(path, ".args").decode().split("\n"), path.read_bytes()
                yield path.name, *given, *(wanted(path, suffix) for suffix in (".stdout", ".status", ".stderr"))


def try_case(program, data, name, words, given, stdout, status, stderr):
    """Runs a case in a folder of its own: it has to answer as wanted."""
    with tempfile.TemporaryDirectory(prefix="native-") as folder:
        if data.is_dir():
            shutil.copytree(data, folder, dirs_exist_ok=True)
        words = [program, *(word for word in words if word)]
        try:
            ran = subprocess.run(words, input=given, capture_output=True, cwd=folder, timeout=SECONDS)
        except subprocess.TimeoutExpired:
            raise Unlike(f"the case {name} takes more than {SECONDS} seconds")
    if ran.returncode != int(status or 0):
        raise Unlike(f"the case {name} ends with status {ran.returncode}")
    if ran.stdout != stdout or stderr is not None and ran.stderr != stderr:
        raise Unlike(f"the case {name} answers otherwise than wanted")


def try_cases(program, folder):
    """Runs all cases of a program: how many."""
    cases = list(cases_of(folder))
    for case in cases:
        try_case(program, folder / "data", *case)
    return len(cases)
