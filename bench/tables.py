#!/usr/bin/env python3
"""Times tables that grow, on files of 16,384 pages in a folder that is given: loads of 1,000 to 16,000 rows in INSERTs of 50, with
keys that rise and with keys that are drawn; 4,000 look-ups by key in tables of 1,000 to 64,000 rows; one SELECT of all rows; and
the look-ups with 64 to 4,096 frames.

usage: bench/tables.py FOLDER [ROUNDS]      (default: 15 rounds; the least of each size counts)

Prints seconds, peak memory and, from size to size, the ratio; of loads also the written bytes a row, as the system counts them, and
what one sync of a page takes on that folder's disk. A doubled table is to load and to be read whole in at most 2.3 times the time,
and a look-up to take at most 1.3 times as long. Build the program first: ./isp builds it.
"""
import os
import random
import subprocess
import sys
import time

from run import PROGRAM, script_file

PAGES = 16_384
CREATE = "CREATE TABLE t (id BIGINT PRIMARY KEY, name VARCHAR(40));\n"
LOADS = (1_000, 2_000, 4_000, 8_000, 16_000)
SIZES = LOADS + (32_000, 64_000)
LOOK_UPS = 4_000
FRAMES = (64, 256, 1_024, 4_096)


def row(key):
    return f"({key},'name of number {key}')"


def keys_of(rows, drawn):
    keys = list(range(1, rows + 1))
    if drawn:
        random.Random(7).shuffle(keys)
    return keys


def load(rows, drawn):
    yield "setup\n" + CREATE + "session 1\n"
    keys = keys_of(rows, drawn)
    for first in range(0, rows, 50):
        yield "INSERT INTO t VALUES " + ",".join(map(row, keys[first:first + 50])) + ";\n"
    yield "schedule\nend\n"


def look_ups(rows):
    yield "setup\nsession 1\n"
    draw = random.Random(11)
    for _ in range(LOOK_UPS):
        yield f"SELECT * FROM t WHERE id = {draw.randint(1, rows)};\n"
    yield "schedule\nend\n"


def scan():
    yield "setup\nsession 1\nSELECT * FROM t;\nschedule\nend\n"


def nothing():
    yield "setup\nsession 1\nschedule\nend\n"


def made(folder, name):
    path = os.path.join(folder, name)
    if os.path.exists(path):
        os.remove(path)
    subprocess.run([PROGRAM, path, "make", "--pages", str(PAGES), "--fanout", "50"], check=True)
    return path


def started(path, lines, *options):
    script = script_file(lines)
    script.seek(0)
    return subprocess.Popen([PROGRAM, path, "run", *options], stdin=script, stdout=subprocess.DEVNULL)


def ended(child):
    _, status, _ = os.wait4(child.pid, 0)
    if status != 0:
        sys.exit(f"the program ended with status {status}")


def run_of(path, lines, *options):
    """The seconds and the written bytes of one run."""
    begin = time.perf_counter()
    child = started(path, lines, *options)
    os.waitid(os.P_PID, child.pid, os.WEXITED | os.WNOWAIT)
    seconds = time.perf_counter() - begin
    with open(f"/proc/{child.pid}/io") as io:
        written = dict(line.split(": ") for line in io)["wchar"]
    ended(child)
    return seconds, int(written)


def peak_of(path, lines, *options):
    """The most memory that one run had, in KiB, as it was last seen before the run ended. (What the system tells of a child that
    has ended is never less than what its parent had.)"""
    child = started(path, lines, *options)
    peak = 0
    while os.waitid(os.P_PID, child.pid, os.WEXITED | os.WNOWAIT | os.WNOHANG) is None:
        with open(f"/proc/{child.pid}/status") as status:
            for line in status:
                if line.startswith("VmHWM"):
                    peak = max(peak, int(line.split()[1]))
    ended(child)
    return peak


def sync_time(folder):
    """What a sync takes after a page was written, in seconds; the middle one of a hundred."""
    path = os.path.join(folder, "sync.probe")
    with open(path, "wb", buffering=0) as probe:
        taken = []
        for _ in range(100):
            probe.seek(0)
            probe.write(bytes(4_096))
            begin = time.perf_counter()
            os.fsync(probe.fileno())
            taken.append(time.perf_counter() - begin)
    os.remove(path)
    return sorted(taken)[50]


def table(title, sizes, measure, rounds, shown):
    """The sizes are run in turn, round by round, so that a slow moment of the machine does not fall on one of them."""
    print(title)
    runs = [[measure(size) for size in sizes] for _ in range(rounds)]
    before = None
    for size, measured in zip(sizes, zip(*runs)):
        least = min(measured)
        ratio = "" if before is None else f"  x{least[0] / before:.2f}"
        print(f"  {size:>7}  {shown(size, least)}{ratio}")
        before = least[0]


def main():
    if len(sys.argv) < 2:
        sys.exit(__doc__.split("\n\n")[1])
    if not os.path.exists(PROGRAM):
        sys.exit("build the program first: ./isp")
    folder = sys.argv[1]
    rounds = int(sys.argv[2]) if len(sys.argv) > 2 else 15
    print(f"one sync of a page: {sync_time(folder) * 1e6:.0f} us")
    for drawn in (False, True):
        title = "load, in INSERTs of 50 rows, keys " + ("drawn" if drawn else "rising")
        table(title, LOADS, lambda rows: run_of(made(folder, "load.db"), load(rows, drawn)), rounds,
              lambda rows, v: f"{v[0]:8.3f} s  {v[1] / rows:8.0f} bytes a row")
    files = {}
    for rows in SIZES:
        files[rows] = made(folder, f"rows-{rows}.db")
        run_of(files[rows], load(rows, False))
    idle = min(run_of(files[SIZES[0]], nothing())[0] for _ in range(rounds))

    def looked_up(rows):
        seconds, written = run_of(files[rows], look_ups(rows))
        return seconds - idle, written

    table(f"{LOOK_UPS} look-ups by key, in tables of rows", SIZES, looked_up, rounds, lambda rows, v: f"{v[0] / LOOK_UPS * 1e6:8.1f} us each")
    table("one SELECT of all rows", SIZES, lambda rows: run_of(files[rows], scan()), rounds, lambda rows, v: f"{v[0]:8.4f} s")
    rows = SIZES[-1]

    def with_frames(frames):
        return run_of(files[rows], look_ups(rows), "--frames", str(frames))

    def peak(frames):
        return peak_of(files[rows], look_ups(rows), "--frames", str(frames))

    table(f"the look-ups among {rows} rows, with frames", FRAMES, with_frames, rounds,
          lambda frames, v: f"{v[0]:8.4f} s  {peak(frames) / 1024:8.1f} MiB")
    for path in files.values():
        os.remove(path)
    os.remove(os.path.join(folder, "load.db"))


if __name__ == "__main__":
    main()
