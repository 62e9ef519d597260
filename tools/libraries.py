"""For the scripts that link the proved crates: the static libraries of the exporting crates, crates/NAME/out/libNAME.a.

`build` builds those that are not up to date. `rt lib` proves such a crate each time, and first builds the libraries that it rests on, so it
is asked only where something has changed: beside each archive stands a sum of all that it was made from, and of itself.

Right behind `rt ci`, in a clone where nothing else has run, the libraries below stand as `rt ci` proved them, and `rt lib` would prove them all
once more: it builds over libraries of its own alone. So the kit's `rattle build`, which `rt lib` calls too, is called over those that are there.
It proves the crate again, over their statements, and compiles it. Where it cannot, or where a library is not of `rt ci`, `rt lib` does it."""

import fcntl
import hashlib
import os
import re
import subprocess
import sys
from concurrent.futures import ThreadPoolExecutor
from pathlib import Path

ROOT = Path(__file__).resolve().parent.parent
ALL = ["store_exports", "sound_exports", "workload_exports", "frame_exports", "wire_exports", "recording_exports"]  # the dearest first
LINE = re.compile(r"^(\w+)( staticlib)?:([^#\n]*)", re.MULTILINE)
TOLD = re.compile(rb"^(fn|struct|enum|impl|trait|statements|library|crate|axioms|logic|logic=proved|empty contracts:)\b")


def archive(name):
    return ROOT / "crates" / name / "out" / f"lib{name}.a"


def listed():
    """Each crate of crates.txt with what its line names."""
    return {found[1]: found[3].split() for found in LINE.finditer((ROOT / "crates.txt").read_text())}


def below(name, uses):
    """The crates that a crate rests on, each behind those that it rests on."""
    found = []
    for one in uses[name]:
        if one in uses:
            found += [other for other in [*below(one, uses), one] if other not in found]
    return found


def sum_of(name, uses, version):
    """A sum of all that an archive is made from: the kit, and the lines and files of the crate and of those below it."""
    total = hashlib.sha256(version.encode())
    for crate in [*below(name, uses), name]:
        total.update(repr((crate, uses[crate])).encode())
        for part in ("src", "specs", "proofs"):
            for file in sorted((ROOT / "crates" / crate / part).rglob("*")):
                if file.is_file():
                    total.update(repr((str(file.relative_to(ROOT)), file.read_bytes())).encode())
    return total.hexdigest()


def stamp_of(name, made_from):
    return f"{made_from} {hashlib.sha256(archive(name).read_bytes()).hexdigest()}\n" if archive(name).is_file() else None


def made_file(name):
    return archive(name).with_suffix(".a.made")


def is_fresh(name, made_from):
    return made_file(name).is_file() and made_file(name).read_text() == stamp_of(name, made_from)


def said_by(child):
    """Passes on to standard error what a command says, but for its lines on what is proved. Its exit status."""
    for line in child.stdout:
        if not TOLD.match(line):
            sys.stderr.buffer.write(line)
            sys.stderr.flush()
    return child.wait()


def started(words, folder):
    return subprocess.Popen(words, cwd=folder, stdin=subprocess.DEVNULL, stdout=subprocess.PIPE, stderr=subprocess.STDOUT)


def by_rt(rt, name):
    """Builds one by `rt lib`: its exit status."""
    return said_by(started([rt, "lib"], ROOT / "crates" / name))


def of_ci(name, uses):
    """Whether each library below stands as rt ci left it, and none as another command of rt did."""
    folders = [ROOT / "crates" / one / "out" / "rlib" for one in below(name, uses)]
    return all((folder / f"{folder.parent.parent.name}.rlib" / "format").is_file() and not (folder / "stamp").is_file() for folder in folders)


def behind_ci(rt, name, uses):
    """Builds one over the libraries that rt ci proved: its exit status."""
    kit = Path(rt).resolve().parent.parent
    under = below(name, uses)
    words = [str(kit / "bin" / "rattle"), "build", "--crate-name", name, "src/lib.rt"]
    for one in ["std", *(one for one in uses[name] if one not in uses)]:
        words += ["--extern", f"{one}={kit}/rlibs/{one}.rlib"]
    words += ["-L", f"dependency={kit}/rlibs"]
    for one in uses[name]:
        if one in uses:
            words += ["--extern", f"{one}={ROOT}/crates/{one}/out/rlib/{one}.rlib"]
    for one in under:
        words += ["-L", f"dependency={ROOT}/crates/{one}/out/rlib"]
    words += ["--antt-project", f"{kit}/rattle/logic/antt-project.json", "--logic-built", f"{kit}/logic_built", "--jobs", "1", "--links", f"{name}="]
    words += ["--crate-type", "staticlib", "--toolchain", f"{kit}/toolchain", "--backend", "llvm", "-o", f"out/lib{name}.a"]
    folder = ROOT / "crates" / name
    (folder / "out").mkdir(exist_ok=True)
    return said_by(started(words, folder))


def build(rt, names, ci=False):
    """Builds those of the libraries that are not up to date; with `ci` right behind rt ci. The exit status of what failed, or 0."""
    version = subprocess.run([rt, "version"], stdin=subprocess.DEVNULL, capture_output=True, text=True).stdout
    # Of two of these in a pipe, one proves after the other.
    with open(ROOT / "crates.txt") as lock:
        fcntl.flock(lock, fcntl.LOCK_EX)
        uses = listed()
        sums = {name: sum_of(name, uses, version) for name in names}
        left = [name for name in names if not is_fresh(name, sums[name])]
        for name in left:
            archive(name).unlink(missing_ok=True)
        done = set()
        if ci and left and all(of_ci(name, uses) for name in left):
            with ThreadPoolExecutor(min(len(left), os.cpu_count() or 1)) as pool:
                done = {name for name, status in zip(left, pool.map(lambda name: behind_ci(rt, name, uses), left)) if status == 0}
        for name in left:
            status = 0 if name in done else by_rt(rt, name)
            if status != 0:
                return status
            made_file(name).write_text(stamp_of(name, sums[name]) or "")
    return 0
