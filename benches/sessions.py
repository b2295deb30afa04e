#!/usr/bin/env python3
"""sessions.py - a running session: edits answered, the journal, `locate` by the line, and the start, over city L.

  sessions.py PROGRAM [--office PROGRAM] [--size S|M|L] [--runs N] [--count N] [--points N] [--workers N,N ..]
              [--only WORD ..]

PROGRAM is the built parcel_tool. Its clients are plain C (sessions.c, by gcc), at named pipes in a temporary folder,
which should be on the disk that a journal would lie on (TMPDIR). Edits and points are drawn with a fixed seed; all
edits are accepted. Each thing is measured N times in turn with what it is compared with; the least times are printed,
and ratios.

answer   one desk without a journal sends COUNT edits one by one, a merge, a split, a move, an insert and a
         straightening in turn: the microseconds from line to answer; the same of `cat` at the same pipes; and, with
         --office (programs/bench_office), of `submit` alone: what the answer takes beyond it
journal  the same with a journal, by one desk and by eight at once (inserts and straightenings of parcels of their own):
         edits a second, beside lines of the same length that a loop in C appends and synchronises one by one
locate   POINTS lines `locate X Y` at one desk, and at four at once, sent while answers are read: lines a second of each
         desk, beside the same lines through `cat`
start    seconds until a session is ready, without a journal and with one of COUNT edits, beside `parcel_tool check` of
         the same layer, with each number of workers; whatever else is measured has one for each processor
"""
import argparse, os, random, shutil, struct, subprocess, sys, tempfile, time

sys.dont_write_bytecode = True
import inputs

DESKS = 8


def rings_of(path):
    """The rings of a layer in whole centimetres: corners in mm, counterclockwise."""
    with open(path, "rb") as file:
        data = file.read()
    rings, at = [], 100
    while at < len(data):
        (words,) = struct.unpack_from(">i", data, at + 4)
        (count,) = struct.unpack_from("<i", data, at + 48)
        flat = struct.unpack_from("<%dd" % (2 * count), data, at + 56)
        rings.append([(int(x) * 10, int(y) * 10) for x, y in zip(flat[::2], flat[1::2])][:0:-1])
        at += 8 + 2 * words
    return rings


def text_of(word, *parts):
    """A line of numbers and corners."""
    numbers = [z for part in parts for z in (part if isinstance(part, tuple) else (part,))]
    return " ".join([word, *map(str, numbers)]) + "\n"


def edges_of(ring):
    return list(zip(ring, ring[1:] + ring[:1]))


def border_of(ring, other):
    """The corners of the run of edges that two rings share, in the first one's direction."""
    theirs = {(b, a) for a, b in edges_of(other)}
    shared = [edge in theirs for edge in edges_of(ring)]
    at = next(k for k in range(len(ring)) if shared[k] and not shared[k - 1])
    return [ring[(at + k) % len(ring)] for k in range(sum(shared) + 1)]


def put_in_and_out(ring, edge):
    """A corner is put into an edge of the ring, and taken out."""
    (ax, ay), (bx, by) = edges_of(ring)[edge]
    middle = (ax + (bx - ax) // 10 * 5, ay + (by - ay) // 10 * 5)
    return [text_of("insert", (ax, ay), (bx, by), middle), text_of("straighten", middle)]


def edits_of_all_kinds(rings, count):
    """Lines of edits that are accepted in this order, on the layer as it was read."""
    pick, lines, new = random.Random(1), [], len(rings) + 1
    pairs = list(range(0, len(rings) - 1, 2))
    pick.shuffle(pairs)
    for k in pairs:
        if len(lines) >= count:
            break
        border = border_of(rings[k], rings[k + 1])
        bent = border[:1] + [(x + 1, y) for x, y in border[1:-1]] + border[-1:]
        outer = next(at for at, edge in enumerate(edges_of(rings[k])) if edge[0] == border[-1])
        lines += [
            text_of("merge", k + 1, k + 2),
            text_of("split", new, *border),
            text_of("move", new + 1, new + 2, *bent),
            *put_in_and_out(rings[k], outer),
        ]
        new += 5
    return lines[:count]


def edits_without_ids(rings, count, desk):
    """Lines of inserts and straightenings of parcels that are this desk's alone: every second one in each direction is
    anyone's."""
    lines = []
    side = int(len(rings) ** 0.5)
    mine = [k for k in range(len(rings)) if k // side % 2 == 0 and k % side % 2 == 0]
    for k in mine[desk::DESKS]:
        if len(lines) >= count:
            break
        lines += put_in_and_out(rings[k], 0)
    return lines[:count]


class Session:
    """A running program at pipes in a folder, with so many desks."""

    def __init__(self, program, home, desks, *words):
        self.room = tempfile.mkdtemp(dir=home)
        self.desks = [os.path.join(self.room, "desk%d" % k) for k in range(desks)]
        make_pipes(self.desks)
        named = [word for desk in self.desks for word in ("--desk", desk)]
        layer = [os.path.join(home, "city", part + ".shp") for part in ("city", "parcels")]
        begun = time.perf_counter()
        self.child = subprocess.Popen(
            [program, "session", *layer, "--unit", "cm", *named, *words], stdin=subprocess.PIPE, stdout=subprocess.PIPE
        )
        if not self.child.stdout.readline().startswith(b"ready "):
            sys.exit("the session did not begin")
        self.seconds = time.perf_counter() - begun

    def close(self):
        """Closes the session: how many entries it had."""
        answer, _ = self.child.communicate(b"close\n")
        shutil.rmtree(self.room)
        if not answer.startswith(b"closed ") or self.child.returncode:
            sys.exit("the session ended with %s %s" % (self.child.returncode, answer))
        return int(answer.split()[1])


class Cat:
    """`cat` at pipes as a desk's."""

    def __init__(self, home, desks):
        self.room = tempfile.mkdtemp(dir=home)
        self.desks = [os.path.join(self.room, "cat%d" % k) for k in range(desks)]
        make_pipes(self.desks)
        self.children = [subprocess.Popen(["sh", "-c", 'exec cat < "$0.in" > "$0.out"', desk]) for desk in self.desks]

    def close(self):
        for child in self.children:
            child.wait()
        shutil.rmtree(self.room)


def make_pipes(desks):
    for desk in desks:
        for end in ("in", "out"):
            os.mkfifo("%s.%s" % (desk, end), 0o600)


def clients(client, how, desks, files, first):
    """Seconds of each client, all at once; each of their answers has to begin with this word."""
    kept = [path + ".answers" for path in files]
    running = [subprocess.Popen([client, how, *it], stdout=subprocess.PIPE) for it in zip(desks, files, kept)]
    seconds = [int(it.communicate()[0]) / 1e9 for it in running]
    for path in kept:
        with open(path) as answers:
            bad = [line for line in answers if first and not line.startswith(first)]
        if bad:
            sys.exit("%d answers as: %s" % (len(bad), bad[0]))
    return seconds


def files_of(home, name, texts):
    """Writes lines to files: their paths."""
    paths = [os.path.join(home, "%s%d" % (name, at)) for at in range(len(texts))]
    for path, lines in zip(paths, texts):
        with open(path, "w") as file:
            file.writelines(lines)
    return paths


def show_answer(given, home, rings):
    lines = edits_of_all_kinds(rings, given.count)
    files = files_of(home, "edits", [lines])
    ours, bare = [], []
    for _ in range(given.runs):
        session = Session(given.program, home, 1)
        ours += clients(given.client, "ask", session.desks, files, "ok ")
        session.close()
        cat = Cat(home, 1)
        bare += clients(given.client, "ask", cat.desks, files, "")
        cat.close()
    each, cats = (min(it) / len(lines) * 1e6 for it in (ours, bare))
    print("answer: %d edits, %.1f us each; cat %.1f us (%.2f)" % (len(lines), each, cats, each / cats), end="")
    if given.office:
        submit = submit_alone(given, home)
        print(
            "; submit %.1f us (%.2f), beyond it %.1f us (wanted: at most 60)" % (submit, each / submit, each - submit),
            end="",
        )
    print(flush=True)


def submit_alone(given, home):
    """The least mean microseconds of `submit`, by bench_office."""
    layer = [os.path.join(home, "city", part + ".shp") for part in ("city", "parcels")]
    best = []
    for _ in range(given.runs):
        told = subprocess.run(
            [given.office, "pairs", *layer, "1", str(given.count)], stdout=subprocess.PIPE, text=True, check=True
        )
        count, nanos = map(int, told.stdout.splitlines()[2].split()[:2])
        best.append(nanos / count / 1000)
    return min(best)


def show_journal(given, home, rings):
    alone = edits_of_all_kinds(rings, given.count // 4)
    together = [edits_without_ids(rings, given.count // 4, desk) for desk in range(DESKS)]
    length = sum(map(len, alone)) // len(alone)
    rates = {"one desk": [], "eight desks": [], "a loop": []}
    for run in range(given.runs):
        for name, texts in (("one desk", [alone]), ("eight desks", together)):
            journal = os.path.join(home, "journal%d%d" % (run, len(texts)))
            session = Session(given.program, home, len(texts), "--journal", journal)
            seconds = clients(given.client, "ask", session.desks, files_of(home, "some", texts), "ok ")
            session.close()
            with open(journal, "rb") as file:
                # a line for the layer, and two for each edit
                if file.read().count(b"\n") != 1 + 2 * sum(map(len, texts)):
                    sys.exit("the journal has other lines than were answered")
            rates[name].append(sum(map(len, texts)) / max(seconds))
        words = [given.client, "sync", os.path.join(home, "bare%d" % run), str(length), str(len(alone))]
        rates["a loop"].append(len(alone) / int(subprocess.run(words, stdout=subprocess.PIPE, check=True).stdout) * 1e9)
    one, eight, bare = (max(rates[name]) for name in ("one desk", "eight desks", "a loop"))
    print(
        "journal: one desk %.0f edits a second, eight desks %.0f; synchronised appends %.0f (%.2f, %.2f)"
        % (one, eight, bare, one / bare, eight / bare),
        flush=True,
    )


def show_locate(given, home, rings):
    pick = random.Random(2)
    xs, ys = ([corner[at] for ring in rings for corner in ring] for at in (0, 1))
    box = min(xs), max(xs), min(ys), max(ys)
    lines = ["locate %d %d\n" % (pick.randint(*box[:2]), pick.randint(*box[2:])) for _ in range(given.points)]
    for desks in (1, 4):
        files = files_of(home, "points", [lines] * desks)
        ours, bare = [], []
        for _ in range(given.runs):
            session = Session(given.program, home, desks)
            ours.append(max(clients(given.client, "flood", session.desks, files, "at ")))
            session.close()
            cat = Cat(home, desks)
            bare.append(max(clients(given.client, "flood", cat.desks, files, "")))
            cat.close()
        rate, cats = (len(lines) / min(it) for it in (ours, bare))
        print(
            "locate, %d at once: %.0f lines a second a desk (wanted: 100000); cat %.0f (%.2f)"
            % (desks, rate, cats, rate / cats),
            flush=True,
        )


def show_start(given, home, rings):
    layer = [os.path.join(home, "city", part + ".shp") for part in ("city", "parcels")]
    edits, = files_of(home, "replayed", [edits_of_all_kinds(rings, given.count)])
    journal = os.path.join(home, "journal_replayed")
    Session(given.program, home, 1, "--clerk", edits, "--journal", journal).close()
    for workers in given.workers.split(","):
        times = {"check": [], "ready": [], "replayed": []}
        for _ in range(given.runs):
            begun = time.perf_counter()
            words = [given.program, "check", *layer, "--unit", "cm", "--workers", workers]
            subprocess.run(words, stdout=subprocess.DEVNULL, check=True)
            times["check"].append(time.perf_counter() - begun)
            for name, words in (("ready", ()), ("replayed", ("--journal", journal))):
                session = Session(given.program, home, 1, "--workers", workers, *words)
                times[name].append(session.seconds)
                session.close()
        check, ready, replayed = (min(times[name]) for name in ("check", "ready", "replayed"))
        print("start, %s workers: ready in %.3f s, with a journal of %d edits %.3f s; check %.3f s (%.2f, %.2f)" % (
            workers, ready, given.count, replayed, check, ready / check, replayed / check), flush=True)


JOBS = {"answer": show_answer, "journal": show_journal, "locate": show_locate, "start": show_start}


def main():
    parser = argparse.ArgumentParser(description=__doc__, formatter_class=argparse.RawDescriptionHelpFormatter)
    parser.add_argument("program")
    parser.add_argument("--office")
    parser.add_argument("--size", default="L")
    parser.add_argument("--runs", type=int, default=3)
    parser.add_argument("--count", type=int, default=20000)
    parser.add_argument("--points", type=int, default=1000000)
    parser.add_argument("--workers", default="1,2,4")
    parser.add_argument("--only", nargs="+", default=[""])
    given = parser.parse_args()
    given.program = os.path.abspath(given.program)
    with tempfile.TemporaryDirectory() as home:
        given.client = inputs.built("sessions.c")
        if not given.client:
            sys.exit("sessions.c cannot be built")
        with inputs.city_layer(given.size) as folder:
            shutil.copytree(folder, os.path.join(home, "city"))
        rings = rings_of(os.path.join(home, "city", "parcels.shp"))
        for name, show in JOBS.items():
            if any(word in name for word in given.only):
                show(given, home, rings)


if __name__ == "__main__":
    main()
