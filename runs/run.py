#!/usr/bin/env python3
"""Runs the built program on each row of the tables beside this script, and compares what it writes and its status.

    runs/run.py [--all-workers] [NAME.table ..] [PROGRAM ..]

With no NAME.table it tries all tables. With no PROGRAM it takes those that `rt ci` leaves, one by each compiler, and
the static one (scripts/static_program) where it is there; `make build` leaves an unproved one. A program whose name
ends in `.static` runs with no environment and no /proc. Each row whose commands can share their work among threads runs
once more with `--workers 3`, and with `--all-workers` with 1 and 64, too: what comes out must be the same. A table has
rows such as

    == A layer without an index
    + square.shp: square.shp
    $ area square.shp --unit cm
    > 1 20000

+ NAME: RECIPE        a file in the row's empty folder; layers.py has the recipes
+* FIRST LAST NAME: RECIPE   a file for each number, which stands for {} in its name
$ WORDS               the command line, in which \\xFF is a byte; further ones run behind it in the same folder, and
                      what they write comes one after the other
< TEXT                a line of standard input, of which there is none else
> TEXT, 2> TEXT       a line of standard output, of standard error; all lines that must come
>* FIRST LAST TEXT    a line TEXT for each number, which stands for {}
>~ PATTERN            a line of standard output that this expression has to match as a whole
[N]                   the last one's status, 0 where it is left out; the others' is 0
= NAME: RECIPE        a file that has to stand in the folder then, with these bytes
=# NAME: LINE / ..    a journal that has to stand there then, with these lines, but for those that begin with `#`
~ NAME ..             all that stands in the folder then
! HOW                 standard output is `closed` or `full`, standard error is `silent` (closed), there are `N MiB` of
                      memory, a file can have `N bytes` at most, or there are `no threads`: the stack of each would take
                      more memory than there is
# ..                  a comment
"""

import copy
import ctypes
import os
import re
import resource
import shlex
import signal
import subprocess
import sys
import tempfile

sys.dont_write_bytecode = True
import layers  # noqa: E402

HERE = os.path.dirname(os.path.abspath(__file__))
BUILT = os.path.join(HERE, "..", "crates", "parcel_tool", "out", "parcel_tool")
STATIC = ".static"
SECONDS = 300  # a full journal takes half a minute, and several times as long beside other work
THREAD_STACK = 1 << 30
SHARED = {b"check", b"export", b"locate", b"overlay", b"part"}  # the commands that take --workers
ONE_NUMBER, ALL_NUMBERS = (3,), (1, 3, 64)  # of workers: none, some and the most
NEW_MOUNTS, NEW_USERS = 0x00020000, 0x10000000  # of unshare
PRIVATE_BELOW = 0x44000  # of mount: recursively private


class Row:
    def __init__(self, title):
        self.title, self.files, self.lines, self.how = title, [], [], []
        self.stdin = []
        self.stdout, self.stderr, self.status = [], [], 0
        self.left, self.journals, self.names = [], [], None


def rows_of(path):
    """The rows of a table."""
    rows = []
    with open(path, encoding="utf-8") as table:
        for number, line in enumerate(table, 1):
            mark, _, text = line.rstrip("\n").partition(" ")
            if not mark or mark == "#":
                continue
            if mark == "==":
                rows.append(Row(text))
            elif mark == "+":
                rows[-1].files.append(text.split(": ", 1))
            elif mark == "+*":
                first, last, each = text.split(" ", 2)
                name, recipe = each.split(": ", 1)
                rows[-1].files += [[name.replace("{}", str(it)), recipe] for it in range(int(first), int(last) + 1)]
            elif mark == "$":
                rows[-1].lines.append([plain(word) for word in shlex.split(text.replace("\\", "\\\\"))])
            elif mark == "!":
                rows[-1].how.append(text)
            elif mark == "=":
                rows[-1].left.append(text.split(": ", 1))
            elif mark == "=#":
                rows[-1].journals.append(text.split(":", 1))
            elif mark == "~":
                rows[-1].names = sorted(text.split())
            elif mark == "<":
                rows[-1].stdin.append(text)
            elif mark == ">":
                rows[-1].stdout.append(text)
            elif mark == ">*":
                first, last, each = text.split(" ", 2)
                rows[-1].stdout += [each.replace("{}", str(it)) for it in range(int(first), int(last) + 1)]
            elif mark == ">~":
                rows[-1].stdout.append(re.compile(text))
            elif mark == "2>":
                rows[-1].stderr.append(text)
            elif re.fullmatch(r"\[[0-9]+\]", mark):
                rows[-1].status = int(mark[1:-1])
            else:
                sys.exit(f"{path}:{number}: this line begins with no mark of a table")
    return rows


def with_workers(row, count):
    """The row with so many workers in each command line that takes a number. Nothing where there is no such line or one
    has a number, where the row's is no command line, or where it limits memory, since each thread takes some for its
    stack."""
    shares = [bool(words) and words[0] in SHARED for words in row.lines]
    named = any(word.startswith(b"--workers") for words in row.lines for word in words)
    limited = any(it.endswith(" MiB") or it == "no threads" for it in row.how)
    if not any(shares) or named or limited or row.status == 2:
        return None
    again = copy.copy(row)
    again.title = f"{row.title} (--workers {count})"
    number = [b"--workers", str(count).encode()]
    again.lines = [[words[0], *number, *words[1:]] if it else words for words, it in zip(row.lines, shares)]
    return again


def plain(word):
    """The bytes of a word, in which \\xFF is a byte."""
    return re.sub(rb"\\x([0-9A-Fa-f]{2})", lambda it: bytes.fromhex(it[1].decode()), word.encode())


def begin(how):
    """Closes or limits what a row asks for, in the new process."""
    for it in how:
        if it == "closed":
            os.close(1)
        elif it == "silent":
            os.close(2)
        elif it.endswith(" MiB"):
            most = int(it.split()[0]) << 20
            resource.setrlimit(resource.RLIMIT_AS, (most, most))
        elif it == "no threads":
            hard = resource.getrlimit(resource.RLIMIT_STACK)[1]
            stack = THREAD_STACK if hard == resource.RLIM_INFINITY else min(THREAD_STACK, hard)
            resource.setrlimit(resource.RLIMIT_STACK, (stack, hard))
            resource.setrlimit(resource.RLIMIT_AS, (stack // 2, stack // 2))
        elif it.endswith(" bytes"):
            most = int(it.split()[0])
            signal.signal(signal.SIGXFSZ, signal.SIG_IGN)
            resource.setrlimit(resource.RLIMIT_FSIZE, (most, most))


def hide_proc():
    """Puts an empty folder over /proc, for this process and those it starts. OSError where it may not."""
    c_library = ctypes.CDLL(None, use_errno=True)
    alone = NEW_MOUNTS | (0 if os.geteuid() == 0 else NEW_USERS)
    if (
        c_library.unshare(alone)
        or c_library.mount(b"none", b"/", None, PRIVATE_BELOW, None)
        or c_library.mount(b"none", b"/proc", b"tmpfs", 0, None)
    ):
        raise OSError(ctypes.get_errno(), "/proc cannot be hidden")


def may_hide_proc():
    """Whether a process here may have /proc hidden."""
    child = os.fork()
    if child == 0:
        try:
            hide_proc()
            os._exit(1 if os.path.exists("/proc/self") else 0)
        except OSError:
            os._exit(1)
    return os.waitpid(child, 0)[1] == 0


class Program:
    """A program, and how it is run: `alone` is with no environment, `hides` with no /proc."""

    def __init__(self, path):
        self.path, self.alone = path, path.endswith(STATIC)
        self.hides = self.alone and may_hide_proc()

    def name(self):
        """What it is called at the end, with how it was run."""
        how = " (no environment, no /proc)" if self.hides else " (no environment; /proc cannot be hidden here)"
        return os.path.basename(self.path) + (how if self.alone else "")

    def begin(self, how):
        """What the new process does before it becomes the program."""
        if self.hides:
            hide_proc()
        begin(how)


def text_of(lines):
    return "".join(line + "\n" for line in lines).encode()


def fits(came, wanted):
    """Whether a stream has the wanted lines, of which some may be expressions."""
    if all(isinstance(it, str) for it in wanted):
        return came == text_of(wanted)
    lines = [re.escape(it) if isinstance(it, str) else it.pattern for it in wanted]
    return re.fullmatch(text_of(lines), came) is not None


def run_line(program, row, room, words):
    """What a command line writes, on both streams, and its status; nothing where it does not end."""
    full = open("/dev/full", "wb") if "full" in row.how else None
    try:
        ran = subprocess.run(
            [program.path.encode(), *words],
            cwd=room,
            input=text_of(row.stdin),
            timeout=SECONDS,
            env={} if program.alone else None,
            stdout=full or subprocess.PIPE,
            stderr=subprocess.PIPE,
            preexec_fn=lambda: program.begin(row.how),
        )
    except subprocess.TimeoutExpired:
        return None
    finally:
        if full:
            full.close()
    return ran.stdout or b"", ran.stderr, ran.returncode


def bytes_at(path):
    """What a file holds, nothing where none is there."""
    if not os.path.isfile(path):
        return None
    with open(path, "rb") as file:
        return file.read()


def left_wrong(room, row):
    """What is wrong with what stands in the folder behind the runs."""
    wrong = []
    for name, recipe in row.left:
        with tempfile.TemporaryDirectory(prefix="wanted-") as other:
            wanted = os.path.join(other, "file")
            layers.make(wanted, recipe)
            if bytes_at(os.path.join(room, name)) != bytes_at(wanted):
                wrong.append(f"{name} has other bytes")
    for name, lines in row.journals:
        wanted = [line.encode() for line in lines.strip().split(" / ") if line]
        edits = [line for line in (bytes_at(os.path.join(room, name)) or b"").splitlines() if not line.startswith(b"#")]
        if edits != wanted:
            wrong.append(f"{name} has the edits {edits}")
    names = sorted(os.listdir(room))
    if row.names is not None and names != row.names:
        wrong.append(f"the folder has {names} and not {row.names}")
    return wrong


def run(program, row):
    """What is wrong with a row's runs, nothing where all is as it must be."""
    wrong = []
    with tempfile.TemporaryDirectory(prefix="run-") as room:
        for name, recipe in row.files:
            layers.make(os.path.join(room, name), recipe)
        answers = [run_line(program, row, room, words) for words in row.lines]
        if None in answers:
            return [f"it ran for more than {SECONDS} seconds"]
        wrong += left_wrong(room, row)
    came_out, came_err = (b"".join(answer[at] for answer in answers) for at in (0, 1))
    streams = [("standard output", came_out, row.stdout), ("standard error", came_err, row.stderr)]
    for what, came, wanted in streams:
        if not fits(came, wanted):
            right = text_of([it if isinstance(it, str) else it.pattern for it in wanted])
            wrong.append(f"{what} has {came[:400]!r} and not {right[:400]!r}")
    statuses, wanted = [answer[2] for answer in answers], [0] * (len(answers) - 1) + [row.status]
    if statuses != wanted:
        wrong.append(f"the status is {statuses} and not {wanted}")
    return wrong


def main():
    built = [it for it in (BUILT, BUILT + ".by-rattle", BUILT + STATIC) if os.path.isfile(it)]
    numbers = ALL_NUMBERS if "--all-workers" in sys.argv else ONE_NUMBER
    words = [it for it in sys.argv[1:] if it != "--all-workers"]
    chosen = [it for it in words if it.endswith(".table")]
    programs = [Program(os.path.abspath(it)) for it in [it for it in words if it not in chosen] or built]
    if not programs:
        sys.exit("no program is built: make build compiles it without proofs, and make test with them")
    tables = sorted(it for it in os.listdir(HERE) if it.endswith(".table"))
    unknown = [it for it in chosen if it not in tables]
    if unknown:
        sys.exit(f"no table {unknown[0]}: there are {' '.join(tables)}")
    tables = chosen or tables
    rows = [(table, row) for table in tables for row in rows_of(os.path.join(HERE, table))]
    rows += [(table, again) for table, row in rows for again in [with_workers(row, it) for it in numbers] if again]
    any_failed = not rows
    for program in programs:
        name, failed = program.name(), 0
        for table, row in rows:
            wrong = run(program, row)
            failed += bool(wrong)
            for it in wrong:
                print(f"runs/{table}: {row.title}: {it}")
        print(f"runs of {name}: {len(rows) - failed} passed, {failed} failed")
        any_failed |= failed > 0
    sys.exit(1 if any_failed else 0)


if __name__ == "__main__":
    main()
