#!/usr/bin/env python3
"""Measures rasq on texts that it generates, each beside one of twice the size.

    benches/measure.py check     the command `check`: setups, long scripts, comments
    benches/measure.py run       the command `run`: expressions, many small updates, long histories
    benches/measure.py           both

Each line gives the seconds and the peak memory of one call, then the same for the doubled size and the
ratio of the seconds: about 2 where the cost is linear, about 4 where it is quadratic. Where numpy is
installed, the same arrays are computed with it, and the ratio to it is printed; where sqlite3 is there, so
is the same number of small updates in memory. Nothing here is a test: figures depend on the machine.
"""
import os
import resource
import subprocess
import sys
import tempfile
import time

TOP = os.path.dirname(os.path.dirname(os.path.abspath(__file__)))
PROGRAM = os.path.join(TOP, "crates", "rasq", "out", "rasq")

try:
    import numpy
except ImportError:
    numpy = None
try:
    import sqlite3
except ImportError:
    sqlite3 = None


def workload(types, setup, sessions):
    """The text of a workload: type lines, setup statements, and a list of (name, statements)."""
    lines = ["#rasq workload 1", "#types", *types, "#setup", *setup]
    for name, statements in sessions:
        lines.append("#session " + name)
        lines.extend(statements)
    lines.append("#end")
    return "\n".join(lines) + "\n"


BYTE_PLANE = "type GreySet = char [*:*,*:*] tiles [0:63,0:63];"
LONG_PLANE = "type LongSet = long [*:*,*:*] tiles [0:63,0:63];"
BYTE_LINE = "type LineSet = char [*:*] tiles [0:15];"


def one_array(side, sessions=(), kind=BYTE_PLANE, name="GreySet"):
    """A setup that makes one square array, whose cells are small numbers."""
    setup = [
        f"create collection G {name};",
        f"insert into G values marray p in [0:{side - 1},0:{side - 1}] values mod(7*p[0]+p[1],100);",
    ]
    return workload([kind], setup, list(sessions))


def small_inserts(count):
    setup = ["create collection L LineSet;"]
    setup += [f"insert into L values marray p in [0:15] values {i % 200};" for i in range(count)]
    return workload([BYTE_LINE], setup, [("A", ["select count_cells(l > 0) from L as l where oid(l) = 1;"])])


def long_script(count):
    statements = [f"select g[{i % 4},0:3] + {i % 100} from G as g;" for i in range(count)]
    return one_array(4, [("A", statements[: min(count, 10000)])] + [
        (f"A{n}", statements[n * 10000 : (n + 1) * 10000]) for n in range(1, (count + 9999) // 10000)
    ])


def comments(size):
    line = "-- " + "x" * 60 + "\n"
    return "#rasq workload 1\n" + line * (size // len(line)) + "#end\n"


def one_select(side, body, kind=BYTE_PLANE, name="GreySet"):
    return one_array(side, [("A", [f"select {body} from G as g;"])], kind, name)


def updates(sessions, count, apart):
    """Small updates of one tile each: every session in its own tile, or all in one."""
    setup = [
        "create collection G GreySet;",
        "insert into G values marray p in [0:7,0:63] values 0;",
    ]
    kind = "type GreySet = char [*:*,*:*] tiles [0:7,0:0];"
    scripts = []
    for s in range(sessions):
        at = s if apart else 0
        scripts.append((f"S{s}", [
            f"update G as g set g[0:7,{at}:{at}] assign marray p in [0:7,{at}:{at}] values {i % 200};"
            for i in range(count // sessions)
        ]))
    return workload([kind], setup, scripts)


def call(words, text):
    """Seconds, peak memory in MiB, status and output of a call."""
    with tempfile.NamedTemporaryFile() as given:
        given.write(text.encode())
        given.flush()
        with open(given.name, "rb") as source:
            begin = time.monotonic()
            child = subprocess.Popen([PROGRAM, *words], stdin=source, stdout=subprocess.PIPE)
            output = child.stdout.read()
            _, status, usage = os.wait4(child.pid, 0)
            seconds = time.monotonic() - begin
            child.returncode = os.waitstatus_to_exitcode(status)
    return seconds, usage.ru_maxrss / 1024, child.returncode, output


def line(name, first, second, note=""):
    (a, memory_a, status_a, _), (b, memory_b, status_b, _) = first, second
    bad = "" if status_a == status_b == 0 else f"  STATUS {status_a} {status_b}"
    print(f"{name:40} {a:8.3f} s {memory_a:7.0f} MiB | {b:8.3f} s {memory_b:7.0f} MiB | x {b / max(a, 1e-6):5.2f}{bad} {note}", flush=True)


def doubled(name, words, text_of, size, note=lambda first, size: ""):
    first = call(words, text_of(size))
    second = call(words, text_of(2 * size))
    line(name, first, second, note(first, size))


def best_of(work, times=5):
    best = float("inf")
    for _ in range(times):
        begin = time.monotonic()
        work()
        best = min(best, time.monotonic() - begin)
    return best


def beside_numpy(compute):
    """A note with the seconds that numpy takes for an array of the same side, on one core."""
    def note(first, side):
        if numpy is None:
            return ""
        rows = numpy.arange(side).reshape(side, 1)
        cells = ((7 * rows + numpy.arange(side)) % 100).astype(numpy.int64)
        seconds = best_of(lambda: compute(cells))
        return f"numpy {seconds * 1000:.2f} ms, x {first[0] / seconds:.0f}"
    return note


def beside_numpy_making(first, side):
    if numpy is None:
        return ""

    def make():
        rows = numpy.arange(side).reshape(side, 1)
        return ((7 * rows + numpy.arange(side)) % 100).astype(numpy.uint8)

    seconds = best_of(make)
    return f"numpy {seconds * 1000:.2f} ms, x {first[0] / seconds:.0f}"


def measure_check():
    print("check: seconds and peak memory, the same for the doubled size, and the ratio of the seconds")
    doubled("marray of side n (2^20 points)", ["check"], one_array, 1024, beside_numpy_making)
    doubled("marray of side n (2^22 points)", ["check"], one_array, 2048, beside_numpy_making)
    doubled("1,000 small inserts", ["check"], small_inserts, 1000)
    doubled("a script of 10,000 statements", ["check"], long_script, 10000)
    doubled("16 MiB of comments", ["check"], comments, 16 << 20)


def beside_sqlite(first, count):
    if sqlite3 is None:
        return ""

    def work():
        base = sqlite3.connect(":memory:", isolation_level=None)
        base.execute("create table g (i integer primary key, v integer)")
        base.executemany("insert into g values (?, 0)", [(i,) for i in range(64)])
        for i in range(count):
            base.execute("begin")
            base.execute("update g set v = ? where i = ?", (i % 200, i % 64))
            base.execute("commit")

    seconds = best_of(work, 3)
    return f"SQLite {seconds:.3f} s, x {first[0] / seconds:.1f}"


def measure_run():
    print("run: the same; a setup of the same array is part of each call")
    words = ["run", "--schedule", "1"]
    forms = [
        ("add_cells(g)", lambda c: c.sum()),
        ("max_cells(g)", lambda c: c.max()),
        ("max_cells(g*2+1)", lambda c: (c * 2 + 1).max()),
        ("condense + over x in sdom(g) using g[x]", lambda c: c.sum()),
        ("add_cells(g[1:*,1:*])", lambda c: c[1:, 1:].sum()),
        ("add_cells(marray x in [0:255,0:255] values x[0]*x[1])", None),
    ]
    for body, compute in forms:
        note = beside_numpy(compute) if compute else (lambda first, side: "")
        doubled(body[:40], words, lambda side, body=body: one_select(side, body), 512, note)
    doubled("10,000 updates apart, 64 sessions", words, lambda n: updates(64, n, True), 10000,
            beside_sqlite)
    doubled("10,000 updates in one tile", words, lambda n: updates(64, n, False), 10000)
    doubled("one statement behind n updates", words, lambda n: updates(1, n, True), 5000)


def main():
    if not os.access(PROGRAM, os.X_OK):
        subprocess.run([os.path.join(TOP, "rasq")], stdin=subprocess.DEVNULL, stdout=subprocess.DEVNULL)
    resource.setrlimit(resource.RLIMIT_CORE, (0, 0))
    wanted = sys.argv[1:] or ["check", "run"]
    if "check" in wanted:
        measure_check()
    if "run" in wanted:
        measure_run()


if __name__ == "__main__":
    main()
