"""For the scripts that run a program of this repository: tools/run-program, tools/run-schedule and tools/make-load.

A proved program stands as crates/NAME/out/NAME, where `rt run` or `rt ci` built it. Where it cannot read or write it ends with an exit
status of 1, and says little. So these scripts hand it its input, pass on what it prints, and say on standard error what went wrong. Their exit
status: 0 where all was printed, and for --help; 1 where the program is not proved, cannot be built or ends with a fault, or where standard
output does not take what it prints; 2 for a wrong command line, an input that cannot be read and what is missing on the machine. Where rt or
cargo fails it is theirs."""

import fcntl
import os
import re
import shutil
import subprocess
import sys
import threading
from pathlib import Path

import libraries

ROOT = Path(__file__).resolve().parent.parent
BLOCK = 1 << 16
UNCHANGED = re.compile(rb"^rt: nothing has changed since the last proved build\b")
RUNNING = re.compile(rb"^rt: running out/")
# What --quick runs: the member of tests/rust and its program.
QUICK = {"replay": ("model", "model-replay"), "rough_load": ("schedules", "model-load")}
HOW = ("--built", "--quick")
# What plays from saved tables, and what that links.
SAVED = ("saved", "saved-replay")
LIBRARIES = ["store_exports", "sound_exports", "wire_exports"]


class Fault(Exception):
    """Said in one line on standard error, with the exit status."""

    def __init__(self, said, status=2):
        super().__init__(said)
        self.status = status


def tell(line):
    print(f"{Path(sys.argv[0]).name}: {line}", file=sys.stderr, flush=True)


def run_main(main, usage):
    """Runs a script: main takes its words, and whether there is a standard input, and returns None for a wrong command line."""
    if sys.stderr is None:
        sys.stderr = open(os.devnull, "w")
    if not stands(1):
        tell("standard output is closed")
        sys.exit(1)
    # What is opened from here on must not get the number of a standard stream that is closed.
    given = stands(0)
    while (spare := os.open(os.devnull, os.O_RDWR)) <= 2:
        pass
    os.close(spare)
    words = sys.argv[1:]
    # Help goes to standard error too: standard output is the program's alone, and may be the input of another.
    if "--help" in words:
        print(usage, file=sys.stderr)
        sys.exit(0)
    try:
        status = main(words, given)
        if status is None:
            print(usage, file=sys.stderr)
            status = 2
    except Fault as fault:
        tell(fault)
        status = fault.status
    except KeyboardInterrupt:
        status = 130
    sys.stderr.flush()
    # A thread that waits for standard input must not hold up the end.
    os._exit(status)


def stands(number):
    try:
        os.fstat(number)
        return True
    except OSError:
        return False


def how_of(words):
    """Takes --built or --quick from the front of the words: which, or None, and the rest."""
    return (words[0], words[1:]) if words and words[0] in HOW else (None, words)


# ---- the program


def command_of(name, how):
    """The words that start a program, once it is built."""
    return quick(name) if how == "--quick" else proved(name, how == "--built")


def kit():
    """The command rt."""
    if (rt := shutil.which("rt")) is None:
        raise Fault("the Rattle kit is not on this machine: there is no command rt")
    return rt


def proved(name, built):
    """The proved program; with `built` as it was built, else proved and built first where it is not up to date."""
    folder = ROOT / "crates" / name
    if not built:
        rt = kit()
        if not (folder / "src" / "main.rt").is_file():
            raise Fault(f"there is no program crates/{name}/src/main.rt")
        passed(made(rt, folder))
    program = folder / "out" / name
    if not os.access(program, os.X_OK):
        raise Fault(f"there is no crates/{name}/out/{name}: rt run in crates/{name} builds it")
    return [str(program)]


def made(rt, folder):
    """Proves and builds a program where it is not up to date. What rt says goes to standard error, but where all is as it was. Its exit status."""
    # `rt run` builds a program and runs it: here on no input, and what it then prints is passed over.
    # Of two of these in a pipe, one proves after the other.
    with open(ROOT / "crates.txt") as lock:
        fcntl.flock(lock, fcntl.LOCK_EX)
        child = subprocess.Popen([rt, "run"], cwd=folder, stdin=subprocess.DEVNULL, stdout=subprocess.DEVNULL, stderr=subprocess.PIPE)
        built = False
        for line in child.stderr:
            built = built or RUNNING.match(line) is not None
            if not built and not UNCHANGED.match(line):
                show(line)
        status = child.wait()
        return 0 if built else status or 1


def show(said):
    sys.stderr.buffer.write(said)
    sys.stderr.flush()


def passed(status):
    if status != 0:
        sys.stderr.flush()
        os._exit(status if status > 0 else 1)


def quick(name):
    """The plain Rust program that does the same, of which nothing is proved."""
    if name not in QUICK:
        raise Fault(f"--quick has no plain Rust program for {name}")
    return [unproved(*QUICK[name])]


def unproved(member, program):
    """A program of tests/rust, once it is built and it is said what it is."""
    built = cargo(member, program)
    tell("--quick: this is by the plain Rust model of tests/rust, of which nothing is proved")
    return built


def saved(how):
    """The program of tests/rust that takes up tables and saves them: by the proved libraries, or with --quick by the model alone."""
    if how == "--quick":
        return [unproved(*SAVED), "--model"]
    if how != "--built":
        passed(libraries.build(kit(), LIBRARIES))
    for name in LIBRARIES:
        if not libraries.archive(name).is_file():
            raise Fault(f"there is no crates/{name}/out/lib{name}.a: tests/rust/build-store builds it")
    return [cargo(*SAVED)]


def cargo(member, program):
    """Builds a program of tests/rust where it is not up to date: its path."""
    tool = shutil.which("cargo")
    if tool is None:
        raise Fault("there is no command cargo on this machine")
    folder = ROOT / "tests" / "rust"
    words = ["build", "--offline", "--quiet", "--release", "--manifest-path", str(folder / "Cargo.toml"),
             "--target-dir", str(folder / "target")]
    passed(subprocess.run([tool, *words, "-p", member, "--bin", program], stdin=subprocess.DEVNULL, stdout=sys.stderr).returncode)
    return str(folder / "target" / "release" / program)


# ---- its input and output


class Input:
    """What a program is given, read in blocks; `watch` sees each of them."""

    def __init__(self, number, name, watch=None):
        self.number, self.name, self.watch, self.fault = number, name, watch, None

    def block(self):
        try:
            found = os.read(self.number, BLOCK)
        except OSError as fault:
            self.fault = Fault(f"{self.name}: {fault.strerror}")
            return b""
        if self.watch:
            self.watch(found)
        return found

    def feed(self, pipe):
        try:
            while found := self.block():
                while found:
                    found = found[os.write(pipe, found) :]
        except OSError:
            pass  # the program has ended; what it has printed says why
        finally:
            os.close(pipe)


def input_of(name, given, watch=None):
    """The file of that name, or standard input where there is none. It is tried before anything is proved or built."""
    if name is None:
        if not given:
            raise Fault("standard input is closed, or a folder")
        try:
            os.read(0, 0)
        except OSError as fault:
            raise Fault(f"standard input: {fault.strerror}") from fault
        return Input(0, "standard input", watch)
    return Input(opened(name), name, watch)


def opened(name):
    """The file of that name, open to be read."""
    try:
        number = os.open(name, os.O_RDONLY)
        os.read(number, 0)
    except OSError as fault:
        raise Fault(f"{name}: {fault.strerror}") from fault
    return number


def play(words, source, speaks=False):
    """Runs a program on an input and passes on what it prints. One that speaks has said itself why its exit status is not 0."""
    try:
        child = subprocess.Popen(words, stdin=subprocess.PIPE, stdout=subprocess.PIPE)
    except OSError as fault:
        raise Fault(f"{words[0]}: {fault.strerror}", 1) from fault
    threading.Thread(target=source.feed, args=(os.dup(child.stdin.fileno()),), daemon=True).start()
    child.stdin.close()
    try:
        while found := os.read(child.stdout.fileno(), BLOCK):
            while found:
                found = found[os.write(1, found) :]
    except OSError as fault:
        child.kill()
        child.wait()
        raise Fault(f"standard output: {fault.strerror}", 1) from fault
    if source.fault:
        raise source.fault
    if (status := child.wait()) > 0 and speaks:
        return status
    if status != 0:
        ended = f"by signal {-status}" if status < 0 else f"with status {status}"
        raise Fault(f"the program ended {ended}", 1)
    return 0
