"""inputs.py - what the other scripts measure with: layers, and the programs of others.

Where BENCH_INPUTS names a folder, they are kept there: what is there is taken, and what is missing is made first
(prepare.sh makes all that all.sh asks for). Else they are made in a temporary folder, which is removed in the end.
"""
import atexit, contextlib, os, re, shutil, subprocess, sys, tempfile

HERE = os.path.dirname(os.path.abspath(__file__))
KEPT = os.environ.get("BENCH_INPUTS")
ROOM = []
"""The temporary folder of this process, once one was asked for."""


def room():
    """A temporary folder, which is removed when this process ends."""
    if not ROOM:
        ROOM.append(tempfile.mkdtemp())
        atexit.register(shutil.rmtree, ROOM[0], ignore_errors=True)
    return ROOM[0]


def home(part):
    """The folder of what is kept, or a temporary one."""
    folder = os.path.join(os.path.abspath(KEPT) if KEPT else room(), part)
    os.makedirs(folder, exist_ok=True)
    return folder


def apart(make, folder):
    """Makes a layer in a process of its own: a child's peak counts what its parent had when it began."""
    child = os.fork()
    if child == 0:
        try:
            make(folder)
            os._exit(0)
        except BaseException as fault:
            print(fault, file=sys.stderr)
            os._exit(1)
    if os.waitpid(child, 0)[1] != 0:
        sys.exit("no layer was made")


@contextlib.contextmanager
def layer(name, make):
    """A folder with the files that `make` writes into a folder; no two makers have one name."""
    folder = os.path.join(home("layers"), re.sub(r"\W+", "_", name))
    if not os.path.isdir(folder):
        # under another name first, so that one that was stopped half-way is not taken for whole
        half = tempfile.mkdtemp(dir=home("layers"))
        apart(make, half)
        os.rename(half, folder)
    try:
        yield folder
    finally:
        if not KEPT:
            shutil.rmtree(folder)


def city(size, *words):
    """Writes a city of this size, with its parcels and zones, into a folder."""

    def make(folder):
        subprocess.run(
            [sys.executable, os.path.join(HERE, "gencity.py"), "--size", size, *words, folder],
            check=True,
            stdout=subprocess.DEVNULL,
        )

    return make


def city_layer(size):
    """The folder of a city of this size."""
    return layer("city " + size, city(size))


def built(source, *libraries):
    """The program of a file in C or C++ of this folder, or None where it cannot be built."""
    text, made = os.path.join(HERE, source), os.path.join(home("programs"), source.partition(".")[0])
    if os.path.exists(made) and os.path.getmtime(made) >= os.path.getmtime(text):
        return made
    compiler = "gcc" if source.endswith(".c") else "g++"
    words = [compiler, "-O2", "-o", made, text, *libraries]
    is_made = shutil.which(compiler) and subprocess.run(words, stderr=subprocess.DEVNULL).returncode == 0
    return made if is_made else None


def ours(name, given):
    """The program of programs/NAME: the given one, or what build.sh makes."""
    if not given:
        subprocess.run([os.path.join(HERE, "build.sh"), name, room()], check=True)
    return given or os.path.join(room(), name)
