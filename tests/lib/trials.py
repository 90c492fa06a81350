"""The program of crates/trials, which makes one call a run, and rows of its calls, for tests/{growth,devices,collisions,fuzz}.

Run as a module, in tests/ by `python3 -m lib.trials`, this file builds the program of crates/trials if it isn't up to date. The
build needs the kit's command rt. Without rt the scripts that run the program skip their tests.
"""
import shutil
import subprocess
import tempfile
from pathlib import Path

from .counting import TOP, Counts

CRATE = TOP / "crates/trials"
MEMORY_FAULT = b"file 0, byte 0: Memory"
MEMORY_WORDS = b"out of memory"
SECONDS = 60


def octets(text):
    """The bytes of hexadecimal digits. H is the header of o5m."""
    return bytes.fromhex(text.replace("H", "ff e0 04 6f 35 6d 32"))


def node(version, place):
    """The canonical line of a version of node 1. `place` has its coordinates."""
    return f"n1 v{version} dV c0 t i0 u T {place}\n".encode()


def deletion(version):
    """The canonical line of a deletion without an author. `version` has the object and the version number, as 'n1 v2'."""
    return f"{version} dD c0 t i0 u T{' N' * version.startswith('w')}{' x y' * version.startswith('n')}\n".encode()


NODE = b"n1 v1 dV c1 t1970-01-01T00:00:01Z i1 ua T x0 y0\n"
NODE_SET = octets("10 0b 02 01 02 02 00 01 00 61 00 00 00")
DELETION = b"n1 v2 dD c1 t1970-01-01T00:00:02Z i1 ua T x y\n"
DELETION_SET = octets("10 05 00 02 02 00 01")
NODE_THEN_DELETION = octets("H") + NODE_SET + DELETION_SET + b"\xfe"
CREATED, GONE = node(1, "x1 y1"), b"n1 v2 dD c0 t i0 u T x y\n"
FIRST, SECOND = node(1, "x1.5 y2"), node(2, "x1.5 y3")
EAST_9, EAST_10 = node(1, "x9 y1"), node(1, "x10 y1")
WAYS = b"w5 v1 dV c0 t i0 u T N\nw5 v2 dD c0 t i0 u T N\n"
WAY_SETS = octets("H ff 11 04 0a 01 00 00 11 03 00 02 00 fe")
LINE = "r7 v1 dV c1 t1970-01-01T00:00:01Z i1 ua%20%b T%1F600%=%3d%,%e9%=1 Mn1@€".encode()
CANONICAL = "r7 v1 dV c1 t1970-01-01T00:00:01Z i1 ua%20%b Té=1,%1f600%=%3d% Mn1@%20ac%".encode()
REAL = b"n1 v3 dV c12 t2014-05-06T07:08:09Z i5 uanna Tnatural=tree x8.6868047 y49.0000001\n"
AT_5 = b"n1 v2 dV c0 t1970-01-01T00:00:05Z i0 u T x2 y1\n"
RELATIONS = [
    f"r{number} v1 dV c7 t2014-05-06T07:08:09Z i{number} uanna%20%{number} Tkey=value{number},name=tree Mn{number}@in,w2@out\n".encode()
    for number in range(1, 61)]
MANY = b"".join(RELATIONS[:40])
# Groups of versions of one key. The versions of a group differ in the fields that are compared last.
TIES = "".join(
    f"{line}\n" for line in (
        *(f"n1 v1 dV c1 t1970-01-01T00:00:01Z i1 u{'a' * 30}{user} T x1 y{place}" for user in "ab" for place in (1, 2)),
        *(f"n1 v1 dV c1 t1970-01-01T00:00:01Z i1 ua T{'key' * 9}=1,name={name} x1 y1" for name in ("é", "%20%", "tree" * 9)),
        *(f"w1 v1 dV c1 t1970-01-01T00:00:01Z i1 ua T Nn1,n{last}" for last in (-2, 2, 3)),
        *(f"r1 v1 dV c1 t1970-01-01T00:00:01Z i1 ua T Mn1@,w2@{role}" for role in ("", "in", "outer" * 7)),
    )).encode()
PLAN = b"latest\nlatest\ntake 0 a.opl\ntake 1 b.opl\npass 0 1 o5c\npass 1 0 opl\ntake 0 a.opl\nwrite 0 opl x.opl\nwrite 1 opl y.opl\n"

# The files that the rows name, each with its content.
FILES = {
    "a.opl": b"n1 v1 dV x1 y1\n",
    "b.opl": b"n1 v2 dD\n",
    "first.opl": b"n1 v1 dV x1.5 y2\n",
    "second.opl": b"n1 v2 dV x1.5 y3\n",
    "both.opl": CREATED + GONE,
    "nine.opl": b"n1 v1 dV x9 y1\n",
    "ten.opl": b"n1 v1 dV x10 y1\n",
    "group.opl": b"n1 v1 dV x9 y1\nn1 v1 dV x10 y1\nn1 v1 dV x9 y1\n",
    "line": LINE,
    "real.opl": REAL,
    "node.opl": NODE,
    "node.o5m": octets("H") + NODE_SET + b"\xfe",
    "pair.opl": NODE + DELETION,
    "pair.o5m": NODE_THEN_DELETION,
    "cut.o5m": NODE_THEN_DELETION[:27],
    "ways.opl": WAYS,
    "ids.opl": b"n3 v1 x1 y1\nn-2 v1 x1 y1\nn0 v1 x1 y1\nn-1 v1 x1 y1\n",
    "unsorted.opl": b"n2 v1 x1 y1\nn1 v1 x1 y1\n",
    "times.opl": b"n1 v1 dV t1970-01-01T00:00:10Z x1 y1\nn1 v2 dV t1970-01-01T00:00:05Z x2 y1\n",
    "many.opl": MANY,
    "two.plan": PLAN,
    "ties.opl": TIES,
    "ended.opl": CREATED + GONE + b"# end\n",
    "slice.opl": b"n1 v1 dD\nn1 v2 dD\n# c\nn3 v1 dD\nw1 v1 dD",
    # It has more than 4 KB, so a shard reads a part of it.
    "large.opl": b"".join(RELATIONS),
}
IDS = b"".join(f"n{number} v1 dV c0 t i0 u T x1 y1\n".encode() for number in (0, -1, -2, 3))


def counts(read, written):
    """The first line that a run prints: the numbers of versions read and written."""
    return f"read {read}, written {written}\n".encode()


class Row:
    """A call with its arguments, and the output that it has to print."""

    def __init__(self, words, answer, refused=None):
        self.words, self.answer = words.split(), answer
        # Whether an output is the permitted one of a refused call that prints more than its refusal.
        self.refused = refused or (lambda told: False)

    def __str__(self):
        return " ".join(self.words)


def behind(line, kept):
    """Accepts the output of a refusal: `line`, and then exactly `kept`."""
    return lambda told: told == line + b"\n" + kept


def front_of(line, whole):
    """Accepts the output of a refusal: `line`, and then a front of `whole`."""
    head = line + b"\n"
    return lambda told: told.startswith(head) and whole.startswith(told[len(head):])


def run_row(words, read, written, file, refused=b""):
    """The row of a run that writes `file`. A refused run has written `refused`, or any front of `file` if `refused` is None."""
    told = front_of(MEMORY_FAULT, file) if refused is None else behind(MEMORY_FAULT, refused)
    return Row(words, counts(read, written) + file, told)


def is_refused_fleet(told):
    """Whether the first run of two mirrors ran out of memory once, and both held the deletion after the second run."""
    line, _, rest = told.partition(b"\n")
    replies = line.split()
    once, _, twice = rest.partition(b"then\n")
    if line == MEMORY_WORDS:
        return not once and twice == GONE + GONE
    one_memory = sorted(replies) == [b"Memory"] + [b"Taken"] * 4
    return one_memory and twice == GONE + GONE and once.replace(CREATED, b"").replace(GONE, b"") == b""


# How often `compare_all` compares all versions. The number doesn't change the memory that it asks for.
ROUNDS = (0, 1, 2)

ROWS = [
    Row("Version::new 4294967295", b"n1 v1 dV c1 t2106-02-07T06:28:15Z i1 ua Tnatural=tree x0 y0\n"),
    Row("Version::copy @real.opl", REAL),
    Row("History::from_versions @nine.opl @ten.opl @nine.opl", EAST_10 + EAST_9),
    Row("History::join @a.opl @b.opl", CREATED + GONE, behind(MEMORY_WORDS, CREATED + GONE)),
    Row("History::copy @pair.o5m", NODE + DELETION, behind(MEMORY_WORDS, NODE + DELETION)),
    *(Row(f"compare_all {rounds} @ties.opl", b"compared\n") for rounds in ROUNDS),
    Row("load_any @line", b"opl, sorted\n" + CANONICAL + b"\n"),
    Row("write_set @pair.opl", NODE_SET + DELETION_SET, front_of(b"out of memory, then failed before", NODE_SET + DELETION_SET)),
    Row("load_any @pair.o5m", b"o5m, sorted\n" + NODE + DELETION),
    Row("load_any @unsorted.opl", b"opl, unsorted\n" + CREATED + CREATED.replace(b"n1", b"n2")),
    Row("FileSource @group.opl", b"whole\n" + EAST_10 + EAST_9,
        front_of(MEMORY_FAULT + b", then file 0, byte 0: Failed", EAST_10 + EAST_9)),
    Row("FileSource @pair.o5m", b"whole\n" + NODE + DELETION,
        front_of(MEMORY_FAULT + b", then file 0, byte 0: Failed", NODE + DELETION)),
    Row("Sink o5m @node.opl", b"written\n" + FILES["node.o5m"], front_of(MEMORY_FAULT, octets("H"))),
    Row("Sink opl @node.o5m", b"written\n" + NODE, behind(MEMORY_FAULT, b"")),
    Row("snapshot @group.opl", EAST_9),
    Row("visible @both.opl", CREATED),
    Row("at 7 @times.opl", AT_5),
    Row("between 6 11 @times.opl", AT_5),
    Row("Mirror::take latest @a.opl @b.opl", b"took 1\n" + GONE, behind(MEMORY_FAULT, CREATED)),
    Row("Mirror::take full @b.opl @a.opl", b"took 1\n" + CREATED + GONE, behind(MEMORY_FAULT, GONE)),
    Row("Mirror::copy @pair.o5m", NODE + DELETION),
    Row("Fleet::run @a.opl @b.opl", b"Taken " * 5 + b"\n" + GONE + GONE + b"then\n" + GONE + GONE, is_refused_fleet),
    run_row("run_merge opl @first.opl @second.opl", 2, 2, FIRST + SECOND, None),
    run_row("run_merge o5m @pair.opl @node.o5m", 3, 2, NODE_THEN_DELETION, None),
    run_row("run_merge opl @many.opl @many.opl", 80, 40, MANY, None),
    run_row("run_apply opl @a.opl @nine.opl", 2, 1, EAST_9),
    run_row("run_apply opl @a.opl @b.opl", 2, 0, b""),
    run_row("run_sort opl @ids.opl", 4, 4, IDS),
    run_row("run_sort o5m @ways.opl", 2, 2, WAY_SETS, None),
    run_row("run_files opl @unsorted.opl @b.opl", 3, 3, CREATED + GONE + CREATED.replace(b"n1", b"n2")),
    run_row("run_files o5m @pair.o5m @node.opl", 3, 2, NODE_THEN_DELETION),
    run_row("run_files_sorted opl @first.opl @second.opl", 2, 2, FIRST + SECOND, None),
    run_row("run_streams opl @ended.opl @ended.opl", 4, 2, CREATED + GONE),
    run_row("run_shard opl 1/2 @slice.opl @slice.opl", 6, 3, deletion("n1 v1") + GONE + deletion("n3 v1"), None),
    run_row("run_shard o5m 2/2 @pair.o5m @node.opl", 0, 0, octets("H fe"), None),
    run_row("run_shard opl 2/2 @large.opl", 29, 29, b"".join(RELATIONS[31:]), None),
]


class Trials(Counts):
    """Runs the program of crates/trials in a folder that has FILES."""

    def __init__(self, room):
        super().__init__()
        self.room = Path(room)
        self.program = CRATE / "out/trials"
        for name, content in FILES.items():
            (self.room / name).write_bytes(content)

    def run(self, words, **given):
        """Makes a call. Returns the status, standard output and standard error."""
        run = subprocess.run(
            [self.program, *words], cwd=self.room, stdin=subprocess.DEVNULL, capture_output=True, timeout=SECONDS, check=False, **given)
        return run.returncode, run.stdout, run.stderr


def skip_without_kit():
    """If the kit's command rt isn't on the PATH, ends the script with nothing passed and nothing failed."""
    if not shutil.which("rt"):
        print("skipped: the kit's command rt is not on the PATH")
        print("0 passed, 0 failed")
        raise SystemExit(0)


def build():
    """Proves and builds the program of crates/trials, unless it exists and no source is newer."""
    program = CRATE / "out/trials"
    if program.exists():
        made = program.stat().st_mtime
        if all(source.stat().st_mtime <= made for source in TOP.glob("crates/*/src/**/*.rt")):
            return
    skip_without_kit()
    built = subprocess.run(["rt", "run"], cwd=CRATE, capture_output=True, text=True, check=False)
    if built.returncode:
        print(f"failed: the trials are not proved: {built.stderr[-2000:]}")
        print("0 passed, 1 failed")
        raise SystemExit(1)


def in_room(trial):
    """Builds the program, calls `trial` with Trials in a new folder, and ends the script."""
    build()
    with tempfile.TemporaryDirectory() as folder:
        trials = Trials(folder)
        # rt ci compares the same file. Each call that it names has a row.
        names = (CRATE / "stdout").read_text()
        trials.holds("the names of the calls", trials.run([])[1].decode() == names, names)
        trials.holds("a row for each call", {row.words[0] for row in ROWS} == set(names.split()), names)
        trial(trials)
    trials.end()


if __name__ == "__main__":
    build()
