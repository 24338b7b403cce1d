"""What the checks under tests/ share: the independent program, the proved programs, and their texts."""
import functools
import os
import pathlib
import re
import shutil
import subprocess
import sys
import typing

ROOT = pathlib.Path(__file__).resolve().parent.parent
STORIES = ROOT / "tests" / "stories"
HEADING = b"record kind status ext length\n"

EVERY_STORY = None
UNREADABLE = ("missing.log", ".")       # no such file, and a folder: no text, and the logs after them are taken all the same


class Program(typing.NamedTuple):
    """A proved program over logs: its crate, and what the gate runs it on."""
    crate: str
    stories: typing.Optional[tuple] = EVERY_STORY       # whose logs stand in the crate's data/
    arguments: typing.Optional[tuple] = None            # else each log, what cannot be read, and standard input
    every_row: bool = True                              # whether its logs must reach every row of the page's tables
    one_text: bool = False                              # whether it writes one text for all its logs


# The programs by their word, which the independent program and bin/ take for the same text. A program joins by its entry here:
# tests/stdout then writes its crate's args, stdin, data/ and stdout, and each check tries it.
PROGRAMS = {
    # The page's text, which every story tells something of.
    "replay": Program("replays"),
    # One report over all logs.
    "report": Program("reports", one_text=True),
    # What layouts are compared by: each function's answers, each end state, and each other line once. How calls follow each other is
    # the module's work, and the replay's logs tell it.
    "answers": Program("answers", (
        "functions", "lengths", "mask", "health", "trips", "thresholds", "starts", "queries", "aborts", "frozen", "ten-wrong",     # answers
        "empty", "area-stays", "ticks", "three-hosts", "edge-of-area",      # ends: idle, receiving, verifying, staged, failed
        "fault-size", "fault-number", "fault-count", "fault-version", "fault-sum", "fault-over", "fault-power",     # faults
        "modules-beside", "modules-ticks", "modules-power", "modules-contexts", "modules-area", "modules-bad",     # both modules
        "bad-records", "page")),                                            # lines: bad, short
}


# The report program from near the largest count on: its crate, the number that each count begins at, and its stories. The first log
# takes a count to the largest; those after it are refused by a cell or by each other count in turn, or taken.
NEARLY_FULL = ("reports_full", 4294967285,
               ("incident", "page", "mask", "ticks", "power", "bad-records", "ten-wrong", *["tail-only"] * 11, "empty"))


# The program behind bin/compare, which takes two logs: its crate, and the stories whose logs the gate runs it on. The second comes on standard input.
COMPARES = "compares"
PAIR = ("ship", "laptop")


# The files of the independent program that are compiled for it, main's last.
INDEPENDENT = ("module", "image", "image_files", "compare", "report", "replay")


# The program behind bin/image, which takes no logs: its crate. tests/stdout writes that crate's files too, and tests/images tries it.
IMAGES = "images"
LONGEST_PAYLOAD = 14336     # document 02, T-02: 128 records of 112 bytes


def payload(size):
    """A payload of so many bytes, no part of which is like another."""
    return bytes((7 * place + place // 112 * 31 + 1) % 256 for place in range(size))


class Unready(Exception):
    """Something that a check needs is not there. The check ends with status 2."""


def is_number(word):
    return re.fullmatch("[0-9]{1,18}", word) is not None


def environment():
    """Without QEMU_*, which the kit's emulator would take as options."""
    return {name: value for name, value in os.environ.items() if not name.startswith("QEMU_")}


def independent(folder):
    """Builds the independent program, and gives the words that start it: by the system's cc, or where there is none by the
    kit's clang."""
    os.makedirs(folder, exist_ok=True)
    if not shutil.which("cc"):
        return [*runner(), by_clang(folder, "independent", [(f"independent/{name}.c", []) for name in INDEPENDENT])]
    finish([str(ROOT / "tests" / "independent" / "build"), str(folder)])
    return [os.path.join(folder, "independent")]


def finish(command):
    done = subprocess.run(command, stdout=subprocess.PIPE, stderr=subprocess.STDOUT)
    if done.returncode:
        raise Unready(f"{os.path.basename(command[0])} failed:\n{done.stdout.decode(errors='replace')}")


# ---- The kit ----

@functools.lru_cache(maxsize=None)
def kit():
    """The kit's folder of this machine."""
    rt = shutil.which("rt")
    if not rt:
        raise Unready("rt, of the Rattle kit, is not on the PATH")
    done = subprocess.run([rt, "doc"], stdout=subprocess.PIPE)
    if done.returncode:
        raise Unready("rt doc failed")
    return pathlib.Path(done.stdout.decode().strip()).parent


def emulator():
    """The kit's emulator, or None on x86-64."""
    path = kit() / "toolchain" / "bin" / "qemu-x86_64"
    return path if os.access(path, os.X_OK) else None


def runner():
    """The words before a proved program: the emulator if there is one, and the kit's loader with its C library."""
    lib = kit() / "toolchain" / "lib"
    words = [str(emulator())] if emulator() else []
    return words + [str(lib / "ld-linux-x86-64.so.2"), "--library-path", str(lib)]


def reached(crate):
    """The crate and every crate of the repository under it."""
    under = {name: words.split() for name, _, words in
             (line.partition(":") for line in (ROOT / "crates.txt").read_text().splitlines())}
    found = [crate]
    for name in found:
        found += [word for word in under[name] if word in under and word not in found]
    return found


def stale(path, crate):
    """Whether something that the crate is built from is newer than what was built."""
    # out/ is rt's own, and newer
    sources = [source for name in reached(crate) for source in (ROOT / "crates" / name).rglob("*")
               if "out" not in source.relative_to(ROOT / "crates" / name).parts]
    return max(source.stat().st_mtime for source in sources if source.exists()) > path.stat().st_mtime


def crate_of(word):
    """The crate of the proved program of a text."""
    return COMPARES if word == "compare" else PROGRAMS[word].crate


def proved(name, folder=None):
    """The command of the proved program of a text, from target/bin or another folder."""
    return proved_crate(crate_of(name), folder)


def proved_crate(crate, folder=None):
    path = pathlib.Path(folder or ROOT / "target" / "bin") / crate
    if not path.is_file():
        raise Unready(f"{path} is not there: 'tools/programs {crate}' builds it")
    if folder is None and stale(path, crate):
        print(f"note: something that {crate} is built from is newer than {path}; 'tools/programs {crate}' builds it again", file=sys.stderr)
    return runner() + [str(path)]


def library():
    """The static library of crate abi, made anew where something under crates/ is newer."""
    finish([str(ROOT / "tools" / "library")])
    return ROOT / "target" / "staticlib" / "libabi.a"


def by_clang(folder, name, sources, libraries=()):
    """Builds C for x86-64 by the kit's clang at -O2, and gives the program's path. The C library's declarations are those of
    tests/clang. Sources are named from tests/ on, each with its own options."""
    own, here, objects = kit(), ROOT / "tests", []
    words = [str(own / "toolchain" / "bin" / "clang"), "--target=x86_64-unknown-linux-gnu", "-O2", "-std=c99", "-DNO_HEADERS",
             "-isystem", str(here / "clang")]
    for source, options in sources:
        objects.append(os.path.join(folder, f"{name}-{pathlib.Path(source).stem}.o"))
        finish([*words, *options, "-c", str(here / source), "-o", objects[-1]])
    path = os.path.join(folder, name)
    finish([str(own / "bin" / "rattle-link"), "--target", "x86_64-unknown-linux-gnu", "--toolchain", str(own / "toolchain"),
            "-o", path, *objects, *map(str, libraries)])
    return path


def stand_in(name, folder):
    """Builds the independent program as a program of one text: like a proved program it takes logs alone and ends with
    status 0."""
    sources = [(f"independent/{file}.c", ["-Dmain=independent_main"]) for file in INDEPENDENT]
    return by_clang(folder, crate_of(name), [*sources, ("clang/stand_in.c", [f'-DTEXT="{name}"'])])


# ---- Texts ----

def run(command, logs, stdin=None, cwd=None):
    """What the program wrote, what it said, and its exit status. The file stdin comes through a pipe."""
    done = subprocess.run([*command, *map(str, logs)], input=pathlib.Path(stdin).read_bytes() if stdin else b"",
                          stdout=subprocess.PIPE, stderr=subprocess.PIPE, cwd=cwd, env=environment())
    return done.stdout, done.stderr, done.returncode


def texts(name, output):
    """Cuts what was written for several logs into the text of each: a replay begins with the heading, answers end with
    the line of the area."""
    parts = []
    for line in output.splitlines(keepends=True):
        begins = line == HEADING if name == "replay" else not parts or parts[-1][-1].startswith(b"area ")
        if begins or not parts:
            parts.append([])
        parts[-1].append(line)
    return [b"".join(part) for part in parts]


def first_difference(one, other):
    """The number of the first line that differs, from 1, and that line on both sides."""
    ones, others = one.splitlines(), other.splitlines()
    for number in range(max(len(ones), len(others)) + 1):
        left = ones[number] if number < len(ones) else None
        right = others[number] if number < len(others) else None
        if left != right or left is None:
            return number + 1, left, right
    return None


def cut(line, most=160):
    """A line for a message."""
    if line is None:
        return "(no line)"
    text = line.decode(errors="backslashreplace")
    return text if len(text) <= most else f"{text[:most]}.. ({len(text)} characters)"


def where_lines_part(left, right, around=60):
    """Two long lines from a little before their first difference on."""
    if left is None or right is None or max(len(left), len(right)) <= 160:
        return cut(left), cut(right)
    at = next((i for i, (a, b) in enumerate(zip(left, right)) if a != b), min(len(left), len(right)))
    at = max(0, at - 20)
    return tuple(f"{line.split(b' ')[0].decode()} .. from character {at}: {line[at:at + around].decode()} .." for line in (left, right))
