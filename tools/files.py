"""Files that cannot be read or written, standard output among them: which it was, and why, in one line."""
import contextlib
import os
import sys


class Failed(Exception):
    """What a person is told."""


def why(wrong):
    return (wrong.strerror or str(wrong)).lower()


@contextlib.contextmanager
def named(name):
    """What the system refuses inside is said of the file of this name."""
    try:
        yield
    except OSError as wrong:
        raise Failed(f"{name or 'an empty name'}: {why(wrong)}") from None


def write_whole(name, data):
    """A file that cannot be written to its end is not left behind. A device or a pipe stays."""
    with named(name):
        file = open(name, "wb")
        try:
            with file:
                file.write(data)
        except OSError:
            if os.path.isfile(name):
                os.remove(os.path.realpath(name))
            raise


# ---- Standard output ----

class NotTaken(Exception):
    """Standard output did not take what was printed; with the system's own words."""


class Output:
    """Standard output, whose failures are told from those of other files."""

    def __init__(self, file):
        self.file = file

    def write(self, text):
        return self.tried(self.file.write, text)

    def flush(self):
        self.tried(self.file.flush)

    @staticmethod
    def tried(step, *words):
        try:
            return step(*words)
        except OSError as wrong:
            raise NotTaken(wrong) from None


def has_output(name):
    """Whether the command of this name was given a standard output at all."""
    if sys.stderr is None:                  # print would take standard output for it
        sys.stderr = open(os.devnull, "w")
    if sys.stdout is None:
        print(f"{name}: standard output is closed", file=sys.stderr)
    return sys.stdout is not None


def not_taken(name, wrong):
    """Says that standard output takes no more, but for a pipe that its reader closed; and lets nothing be tried again at the end."""
    os.dup2(os.open(os.devnull, os.O_WRONLY), 1)
    if not isinstance(wrong, BrokenPipeError):
        print(f"{name}: standard output: {why(wrong)}", file=sys.stderr)


def misused(name, words, usage):
    """Says what was not understood, and how the command is used. The exit status of bad usage."""
    print(f"{name}: not understood: {' '.join(words) or 'no word at all'}\n{usage}", file=sys.stderr)
    return 2


def command(name, main):
    """Ends with the exit status that main gives for the command's words, and with 2 where what it prints is not taken."""
    if not has_output(name):
        sys.exit(2)
    sys.stdout = Output(sys.stdout)
    try:
        status = main(sys.argv[1:])
        sys.stdout.flush()
    except NotTaken as wrong:
        not_taken(name, wrong.args[0])
        status = 2
    sys.exit(status)
