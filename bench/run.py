#!/usr/bin/env python3
"""Times the built program: `make` and a run of an empty script on files of three sizes, one-row INSERTs, searches of a table,
scripts of 1 to 16 MB in lines of 100 bytes, and statements whose geometry text grows to 60 KB, good or bad at its last byte.
Each run has a new file of its own, made before.

usage: bench/run.py [ROUNDS]      (default: 25; the least of each size counts)

Prints seconds, peak memory and, from size to size, the ratio of the seconds. A doubled script or text is to take at most
2.3 times as long, and a file of any size as long as a small one. Build the program first: ./isp builds it.
"""
import os
import subprocess
import sys
import tempfile
import time

TOP = os.path.dirname(os.path.dirname(os.path.abspath(__file__)))
PROGRAM = os.path.join(TOP, "crates", "isp", "out", "isp")
CREATE = "CREATE TABLE p (id BIGINT PRIMARY KEY, g GEOMETRY NOT NULL SRID 0, SPATIAL INDEX (g));\n"


def insert(key):
    return f"INSERT INTO p VALUES ({key},ST_GeomFromText('POINT({key % 1000} {key // 1000})'));\n"


def search(size):
    return f"SELECT * FROM p WHERE MBRIntersects(g, ST_GeomFromText('LINESTRING(0 0,{size} 1)'));\n"


def empty(pages):
    yield "setup\nsession 1\nschedule\nend\n"


def inserts_and_a_search(rows):
    yield "setup\n" + CREATE + "session 1\n"
    yield from map(insert, range(1, rows + 1))
    yield search(9) + "schedule\nend\n"


def fifty_searches(rows):
    yield "setup\n" + CREATE
    yield from map(insert, range(1, rows + 1))
    yield "session 1\n" + search(9) * 50 + "schedule\nend\n"


def lines_of_100_bytes(megabytes):
    """INSERTs of a text, each line with its line feed 100 bytes long. The table's page is full after some thirty of them."""
    yield "setup\nCREATE TABLE t (id BIGINT PRIMARY KEY, name VARCHAR(100));\nsession 1\n"
    for key in range(megabytes * 10_000):
        front = f"INSERT INTO t VALUES ({key}, '"
        yield front + "x" * (100 - len(front) - 4) + "');\n"
    yield "schedule\nend\n"


def texts(kilobytes, last):
    """200 INSERTs of a line whose text has so many bytes. The row is too large for a table; its text is read for that."""
    yield "setup\n" + CREATE + "session 1\n"
    point = "1000000 2000000"
    text = "LINESTRING(" + ",".join([point] * (kilobytes * 1000 // (len(point) + 1))) + last
    for key in range(200):
        yield f"INSERT INTO p VALUES ({key},ST_GeomFromText('{text}'));\n"
    yield "schedule\nend\n"


def good_texts(kilobytes):
    return texts(kilobytes, ")")


def bad_texts(kilobytes):
    return texts(kilobytes, "]")


def script_file(lines):
    """A file of the lines, written one by one: what a child is said to have used at its peak is never less than what
    this process had when it started it, so no script is held here."""
    script = tempfile.TemporaryFile("w+")
    script.writelines(lines)
    return script


def timed(words, script):
    """The seconds and the peak memory in KiB of one call of the program."""
    begin = time.perf_counter()
    done = subprocess.Popen([PROGRAM, *words], stdin=script, stdout=subprocess.DEVNULL)
    _, status, usage = os.wait4(done.pid, 0)
    seconds = time.perf_counter() - begin
    if status != 0:
        sys.exit(f"the program ended with status {status}")
    return seconds, usage.ru_maxrss


def made(folder, pages):
    """A new file, and what making it took."""
    path = os.path.join(folder, "bench.db")
    if os.path.exists(path):
        os.remove(path)
    return path, timed([path, "make", "--pages", str(pages), "--fanout", "50"], subprocess.DEVNULL)


def measure_make(folder, pages, script):
    return made(folder, pages)[1]


def measure_empty_run(folder, pages, script):
    script.seek(0)
    return timed([made(folder, pages)[0], "run"], script)


def measure_run(folder, size, script):
    script.seek(0)
    return timed([made(folder, 1024)[0], "run"], script)


def table(title, lines_of, sizes, rounds, measure=measure_run):
    """The sizes are run in turn, round by round, so that a slow moment of the machine does not fall on one of them."""
    print(title)
    scripts = [script_file(lines_of(size)) for size in sizes]
    with tempfile.TemporaryDirectory() as folder:
        runs = [[measure(folder, size, script) for size, script in zip(sizes, scripts)] for _ in range(rounds)]
    before = None
    for size, measured in zip(sizes, zip(*runs)):
        seconds, peak = map(min, zip(*measured))
        ratio = "" if before is None else f"  x{seconds / before:.2f}"
        print(f"  {size:>7}  {seconds:8.3f} s  {peak / 1024:8.1f} MiB{ratio}")
        before = seconds


def main():
    if not os.path.exists(PROGRAM):
        sys.exit("build the program first: ./isp")
    rounds = int(sys.argv[1]) if len(sys.argv) > 1 else 25
    table("make, of files of pages", empty, (64, 1_024, 65_536), rounds, measure_make)
    table("an empty script, on files of pages", empty, (64, 1_024, 65_536), rounds, measure_empty_run)
    table("one-row INSERTs, and one search", inserts_and_a_search, (10, 20, 40), rounds)
    table("50 searches of a table of rows", fifty_searches, (10, 20, 40), rounds)
    table("a script of megabytes, lines of 100 bytes", lines_of_100_bytes, (1, 2, 4, 8, 16), min(rounds, 5))
    table("200 geometry texts of kilobytes", good_texts, (1, 2, 4, 8, 15, 30, 60), rounds)
    table("the same with a bad last byte", bad_texts, (1, 2, 4, 8, 15, 30, 60), rounds)


if __name__ == "__main__":
    main()
