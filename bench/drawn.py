#!/usr/bin/env python3
"""Tries the built program on a table that grows and shrinks: drawn INSERTs, UPDATEs, DELETEs and transactions, in several runs
on one file with 64 frames, beside a dictionary. Each answer is compared with what the dictionary says, each run ends with a
SELECT of the whole table, and the last one looks each key up.

usage: bench/drawn.py [ROWS [SEED]]      (default: 2,000 rows are put, seed 1)

Prints a line a run; ends with status 1 at the first answer that is another one. Build the program first: ./isp builds it.
"""
import os
import random
import subprocess
import sys
import tempfile

TOP = os.path.dirname(os.path.dirname(os.path.abspath(__file__)))
PROGRAM = os.path.join(TOP, "crates", "isp", "out", "isp")
RUNS = 8
PAGES = 4096
CREATE = "CREATE TABLE t (id BIGINT PRIMARY KEY, a VARCHAR(500), n BIGINT, b VARCHAR(400))"
LEAST, GREATEST = -2**63, 2**63 - 1


def spelled(value):
    """A value as it stands in a statement, and as it is printed."""
    return str(value) if isinstance(value, int) else "'" + value.replace("'", "''") + "'"


def shown(key, row):
    return "(" + ",".join(map(spelled, (key, *row))) + ")"


class Run:
    """A script and the answers that it is to get."""

    def __init__(self, draw, rows):
        self.draw = draw
        self.rows = rows
        self.kept = None
        self.setup = []
        self.texts = []
        self.answers = []

    def say(self, text, answer):
        self.texts.append(text)
        self.answers.append(answer)

    def drawn_text(self, most):
        return "".join(self.draw.choices("abcdefgh '", k=self.draw.randint(0, most)))

    def drawn_row(self):
        return self.drawn_text(500), self.draw.randint(LEAST, GREATEST), self.drawn_text(400)

    def drawn_key(self):
        """Near one another for the most part, and anywhere."""
        if self.draw.random() < 0.9:
            return self.draw.randint(-5000, 5000)
        return self.draw.choice((LEAST, GREATEST, self.draw.randint(LEAST, GREATEST)))

    def some_key(self):
        """One that is there, for the most part."""
        if self.rows and self.draw.random() < 0.9:
            return self.draw.choice(list(self.rows))
        return self.drawn_key()

    def insert(self, count):
        """Answers how many rows were added: all, or none where a key is there."""
        new = [(self.drawn_key(), self.drawn_row()) for _ in range(count)]
        if self.draw.random() < 0.8:
            new = list({key: row for key, row in new if key not in self.rows}.items())
        if not new:
            return 0
        text = "INSERT INTO t VALUES " + ",".join(shown(key, row) for key, row in new)
        added = {}
        for key, row in new:
            if key in self.rows or key in added:
                self.say(text, f"ERR 1062 23000 duplicate key {key}")
                return 0
            added[key] = row
        self.rows.update(added)
        self.say(text, f"OK {len(new)} rows")
        return len(new)

    def update(self):
        key, a, n = self.some_key(), self.drawn_text(500), self.draw.randint(0, 9)
        there = key in self.rows
        if there:
            self.rows[key] = (a, n, self.rows[key][2])
        self.say(f"UPDATE t SET a = {spelled(a)}, n = {n} WHERE id = {key}", f"OK {int(there)} rows")

    def delete(self):
        key = self.some_key()
        there = self.rows.pop(key, None) is not None
        self.say(f"DELETE FROM t WHERE id = {key}", f"OK {int(there)} rows")

    def look_up(self, key):
        found = [shown(key, self.rows[key])] if key in self.rows else []
        self.say(f"SELECT * FROM t WHERE id = {key}", " ".join([f"OK {len(found)} rows", *found]))

    def scan(self):
        rows = [shown(*each) for each in sorted(self.rows.items())]
        self.say("SELECT * FROM t", " ".join([f"OK {len(rows)} rows", *rows]))

    def begin(self):
        self.kept = dict(self.rows)
        self.say("BEGIN", "OK")

    def end(self, word):
        """Answers how many rows fewer there are than before."""
        now = len(self.rows)
        if word == "ROLLBACK":
            self.rows.clear()
            self.rows.update(self.kept)
        self.kept = None
        self.say(word, "OK")
        return now - len(self.rows)

    def some_statement(self):
        self.draw.choice((self.update, self.update, self.delete, lambda: self.look_up(self.some_key())))()

    def script(self):
        lines = ["setup", *(text + ";" for text in self.setup), "session 1", *(text + ";" for text in self.texts)]
        return "\n".join([*lines, "schedule", "end", ""])

    def lines(self):
        setup = [f"0 0.{k} OK" for k in range(1, len(self.setup) + 1)]
        return setup + [f"{k} 1.{k} {answer}" for k, answer in enumerate([*self.answers, "END"], 1)]


def drawn_run(draw, rows, count):
    """A run in which so many rows are put and stay, about as many are looked up, changed or deleted, and some changes are
    taken back."""
    run = Run(draw, rows)
    put = 0
    while put < count:
        in_transaction = draw.random() < 0.3
        if in_transaction:
            run.begin()
        added = 0
        for _ in range(draw.randint(1, 4) if in_transaction else 1):
            added += run.insert(draw.randint(1, 20))
            for _ in range(draw.randint(0, 20)):
                run.some_statement()
        if in_transaction:
            word = draw.choice(("COMMIT", "COMMIT", "ROLLBACK"))
            run.end(word)
            added = 0 if word == "ROLLBACK" else added
        put += added
    run.scan()
    return run


def looked_up(run):
    for key in sorted(run.rows):
        run.look_up(key)
    for _ in range(100):
        run.look_up(run.drawn_key())


def play(path, run):
    done = subprocess.run([PROGRAM, path, "run", "--frames", "64"], input=run.script().encode(), capture_output=True)
    got = done.stdout.decode().split("\n")
    for told, wanted in zip(got, [*run.lines(), ""]):
        if told != wanted:
            sys.exit(f"another answer:\n  {told[:200]}\nin place of\n  {wanted[:200]}")
    if done.returncode != 0 or len(got) != len(run.lines()) + 1:
        sys.exit(f"status {done.returncode}, {len(got)} lines: {done.stderr.decode()}")


def main():
    if not os.path.exists(PROGRAM):
        sys.exit("build the program first: ./isp")
    count = int(sys.argv[1]) if len(sys.argv) > 1 else 2_000
    draw = random.Random(int(sys.argv[2]) if len(sys.argv) > 2 else 1)
    rows = {}
    with tempfile.TemporaryDirectory() as folder:
        path = os.path.join(folder, "drawn.db")
        subprocess.run([PROGRAM, path, "make", "--pages", str(PAGES), "--fanout", "50"], check=True)
        for number in range(1, RUNS + 1):
            run = drawn_run(draw, rows, -(-count // RUNS))
            if number == 1:
                run.setup.append(CREATE)
            if number == RUNS:
                looked_up(run)
            play(path, run)
            print(f"run {number}: {len(run.texts)} statements, {len(rows)} rows then, all as the dictionary says")


main()
