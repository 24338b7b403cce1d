"""Counting a program's instructions: by perf, by valgrind's callgrind, or by the trace of the kit's emulator."""
import pathlib
import shutil
import subprocess
import tempfile

import programs


class Perf:
    name, long = "perf stat", 100000
    words = ["perf", "stat", "-x", ",", "-e", "instructions:u", "-o"]

    @classmethod
    def works(cls):
        if not shutil.which("perf"):
            return False
        with tempfile.NamedTemporaryFile() as out:
            subprocess.run([*cls.words, out.name, "true"], stdout=subprocess.DEVNULL, stderr=subprocess.DEVNULL)
            return cls.read(out.name) is not None

    @staticmethod
    def read(name):
        for line in pathlib.Path(name).read_text().splitlines():
            if "instructions" in line and line.split(",")[0].isdigit():
                return int(line.split(",")[0])
        return None

    def count(self, command):
        with tempfile.NamedTemporaryFile() as out:
            quiet([*self.words, out.name, *command])
            return self.read(out.name)


class Callgrind:
    name, long = "valgrind --tool=callgrind", 100000

    @staticmethod
    def works():
        return shutil.which("valgrind") is not None

    def count(self, command):
        said = quiet(["valgrind", "--tool=callgrind", "--callgrind-out-file=/dev/null", *command])
        for line in said.splitlines():
            if "Collected :" in line:
                return int(line.split(":")[1])
        raise programs.Unready(f"callgrind counted nothing: {said}")


class Emulator:
    """One line of trace on standard error for each instruction. Started through the loader only the loader would be found
    by name, so the loader stands under a folder of its own and the program is started itself."""
    name, long = "the trace of the kit's qemu-x86_64", 10000

    def __init__(self, room):
        self.lib = programs.kit() / "toolchain" / "lib"
        self.root = room / "root"
        (self.root / "lib64").mkdir(parents=True)
        (self.root / "lib64" / "ld-linux-x86-64.so.2").symlink_to(self.lib / "ld-linux-x86-64.so.2")

    def count(self, command):
        program = command[len(programs.runner()):]
        words = [str(programs.emulator()), "-L", str(self.root), "-E", f"LD_LIBRARY_PATH={self.lib}", "-one-insn-per-tb",
                 "-d", "exec,nochain", *program]
        with subprocess.Popen(words, stdin=subprocess.DEVNULL, stdout=subprocess.DEVNULL, stderr=subprocess.PIPE,
                              env=programs.environment(), bufsize=1 << 20) as running:
            count = sum(line.startswith(b"Trace") for line in running.stderr)
        if not count:
            raise programs.Unready("the emulator traced nothing")
        return count


def counter(room):
    if programs.emulator():
        return Emulator(room)
    for kind in (Perf, Callgrind):
        if kind.works():
            return kind()
    raise programs.Unready("neither perf nor valgrind can count instructions here")


def quiet(command):
    """What the command said on standard error."""
    done = subprocess.run(command, stdin=subprocess.DEVNULL, stdout=subprocess.DEVNULL, stderr=subprocess.PIPE,
                          env=programs.environment())
    return done.stderr.decode(errors="replace")
