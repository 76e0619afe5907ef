"""The comparison that check-sql and check-postgres share."""
import argparse
import collections
import glob
import math
import os
import random
import re
import subprocess
import sys
import time

here = os.path.dirname(os.path.abspath(__file__))
top = os.path.dirname(os.path.dirname(here))
sys.path[:0] = [here, os.path.join(top, "tests", "reference")]
import reports                                                          # noqa: E402
import translate                                                        # noqa: E402

LIMIT = 256
CONDITIONS = 64         # in all, of the lines and derived: question 13
SECONDS = 50            # where no count is given, no new report is begun after these
LETTERS = re.compile("S+U*M*B*Z?F?R*")           # the lines of an answer's print, by their letters
# Why an SQL system does not take a key column, by the words of SQLite and of PostgreSQL.
REASONS = {
    "equal cells": re.compile("unique constraint", re.IGNORECASE),
    "a blank": re.compile("check constraint", re.IGNORECASE),
    "no such column": re.compile("no such column|named in key does not exist"),
}


def printed(rows, letter="R"):
    return "".join("%s\t%s\n" % (letter, "\t".join("-" if r is None else str(r) for r in row))
                   for row in rows).encode("ascii")


def most_rows(text):
    """No result on the way has more rows than this: every row of each table with every row of the
    others, or of a full outer join the rows of both sides, none of which has a partner."""
    query = translate.Query(text)

    def product(tables):
        return math.prod(max(1, len(query.tables[t][1])) for t in tables)
    most = product(range(len(query.tables)))
    if query.full_outer:
        _, left, right, _ = query.joins[-1]
        most = max(most, product(query.under[left]) + product(query.under[right]))
    return most


def lone_right_rows(text, rows):
    """How many of these R lines are of a right row without a partner: all tables of the left side
    of a full outer join are blank. None where there is no such join."""
    query = translate.Query(text)
    if not query.full_outer:
        return None
    left = query.under[query.joins[-1][1]]
    return sum(all(line.split(b"\t")[1 + t] == b"-" for t in left) for line in rows.splitlines())


def added_line(count):
    """The F line of so many added rows; none where the count is None."""
    return b"" if count is None else b"F\t%d\n" % count


def without_order(text):
    return b"".join(line for line in text.splitlines(True) if not line.startswith(b"P"))


def lines_of(out, letter):
    """The R lines of a print, or those of another letter."""
    return b"".join(line for line in out.splitlines(True) if line.startswith(letter))


# Whose key columns and kinds of joins are counted, and from how many random reports on each must
# occur among them.
FILES, CHANCE = "of files", "made by chance"
ENOUGH = 100
KEPT = {"R": "reports with a right outer join", "F": "reports with a full outer join"}


def reason(message):
    """Which of REASONS an SQL system's message has."""
    for name, words in REASONS.items():
        if words.search(message):
            return name
    raise ValueError("the tables cannot be made: " + message)


def turned_down(out):
    """The number of a refusal, or None."""
    if not out.startswith(b"E\t"):
        return None
    return int(out[2:]) if out[2:].strip().isdigit() else 0         # 0: no number of a question


class Check:
    """Holds an implementation to an SQL system.

    run(program, text) gives a print; ask(text) gives the rows of the nested join
    and of the joins one by one, both as printed() writes them, how many rows each
    join has, and the counts of each condition, as U lines. refuses(text) gives which of
    REASONS keeps the tables from being made, or None. run_plan(text, lines), which
    may be left out, gives the counts of the pairs, how many rows a full outer join adds
    or None, and the rows of a printed plan.
    """

    def __init__(self, ask, run, refuses, run_plan):
        self.ask, self.run, self.refuses, self.run_plan = ask, run, refuses, run_plan
        self.count = collections.Counter()

    def difference(self, what, text, **prints):
        self.count["differences"] += 1
        print("DIFFERENCE: " + what)
        for name, value in [("the text", text)] + list(prints.items()):
            print("  " + name.replace("_", " ") + ":")
            for line in value.decode("ascii", "replace").splitlines() or ["(nothing)"]:
                print("    " + line)
        sys.stdout.flush()

    def sql(self, text):
        nested, steps, counts, tallies = self.ask(text)
        if nested != steps:
            self.difference("the nested join and the joins one by one in SQL", text,
                            nested=nested, one_by_one=steps)
        self.count["rows of SQL"] += nested.count(b"\n")
        if b"\t-" in nested:
            self.count["results of SQL with a blank"] += 1
        for line in tallies.splitlines():
            self.count["conditions counted by SQL"] += 1
            if int(line.split(b"\t")[4]):
                self.count["conditions counted by SQL: unknown of some rows"] += 1
        return nested, counts, tallies

    def hold_direct(self, text, out, rows, counts, who):
        most = max(counts, default=0)
        expected = rows if most <= LIMIT else b"E\t11\n"
        self.count[who + ": " + ("rows" if most <= LIMIT else "E 11")] += 1
        if out != expected:
            self.difference(who, text, SQL=expected, printed=out)

    def hold_report(self, text, out, rows, counts, tallies, who):
        number = turned_down(out)
        query = translate.Query(text)
        if any(counts[i] > LIMIT for i in query.joins_asked()):
            self.count[who + ": E 11, wanted"] += 1
            if number != 11:
                self.difference(who, text, SQL=b"E\t11\n", printed=out)
        elif number is None:
            self.count[who + ": rows"] += 1
            self.hold_sets(text, out, who)
            if b"\nZ\n" in out:
                self.count[who + ": with blanking steps"] += 1
            if b"\nM\tO\t" in out:
                self.count[who + ": with a product"] += 1
            self.hold_added(text, out, rows, who)
            if lines_of(out, b"U") != tallies:
                self.difference(who + ", the U lines", text, SQL=tallies, printed=out)
            letters = "".join(line[:1] for line in out.decode("ascii", "replace").splitlines())
            if not LETTERS.fullmatch(letters):
                self.difference(who + ", the order of the lines", text, printed=out)
            if lines_of(out, b"R") != rows:
                self.difference(who, text, SQL=rows, printed=out)
            elif self.run_plan:
                self.hold_plan(text, out, rows, who)
        elif number == 11 and most_rows(text) > LIMIT:
            self.count[who + ": E 11"] += 1
        else:
            self.difference(who, text, SQL=rows, printed=out)

    def hold_sets(self, text, out, who):
        """The S lines must be those of the translation, which works out derived conditions by itself."""
        query = translate.Query(text)
        if query.derivation[0]:
            self.count[who + ": with a derived condition"] += 1
        if any(int(number) >= len(query.conditions) for line in lines_of(out, b"M").splitlines()
               for number in line.split(b"\t")[5:]):
            self.count[who + ": with a derived condition at a pair"] += 1
        sets = query.set_lines().encode("ascii")
        if lines_of(out, b"S") != sets:
            self.difference(who + ", the S lines", text, translation=sets, printed=out)

    def hold_added(self, text, out, rows, who):
        """The F line must have the count of the right rows without a partner."""
        count = lone_right_rows(text, rows)
        if count is not None:
            self.count["%s: with a full outer join, %s" % (who, "rows added" if count else "no row added")] += 1
        if "R" in translate.Query(text).kinds():
            self.count[who + ": with a right outer join"] += 1
        if lines_of(out, b"F") != added_line(count):
            self.difference(who + ", the F line", text, SQL=added_line(count), printed=out)

    def hold_plan(self, text, out, rows, who):
        query = translate.Query(text)
        pairs = query.pairs or query.tree_pairs()
        lines = out.decode("ascii").splitlines()
        steps = [line.split("\t") for line in lines if line.startswith("M\t")]
        try:
            printed_pairs = [(int(one), int(other)) for _, _, one, other, *_ in steps]
            same = len(pairs) == len(steps) and all(
                printed_pair == pair or step[1] == "L" and printed_pair == pair[::-1]
                for printed_pair, pair, step in zip(printed_pairs, pairs, steps))
            if not same:
                self.difference(who + ", the pairs of the M lines", text, printed=out)
                return
            counts, added, plan_rows = self.run_plan(text, lines)
        except Exception as fault:                          # a plan that cannot be run
            self.difference(who + ", the plan: " + repr(fault), text, printed=out)
            return
        self.count[who + ": plans run in SQL"] += 1
        if counts != [int(step[4]) for step in steps]:
            self.difference(who + ", the counts of the M lines", text,
                            SQL=repr(counts).encode("ascii"), printed=out)
        if lines_of(out, b"F") != added_line(added):
            self.difference(who + ", the F line and what the plan leaves", text,
                            SQL=added_line(added), printed=out)
        if plan_rows != rows:
            self.difference(who + ", the rows of the plan", text, SQL=plan_rows, printed=out)

    def hold_key_columns(self, text, fit, whose):
        """Holds question 12, by which the key columns of a text fit or not, to the constraints
        of the SQL tables. Gives whether these were taken."""
        if all(column is None for column in translate.Query(text).key_columns):
            return True
        why = self.refuses(text)
        self.count["key columns %s in SQL: %s" % (whose, why or "taken")] += 1
        if fit != (why is None):
            self.difference("the key columns", text, SQL=(why or "taken").encode("ascii"))
        return why is None

    def has_key_columns(self, whose):
        """Whether there were key columns that SQL takes, and some for each reason not to."""
        return all(self.count["key columns %s in SQL: %s" % (whose, why)] for why in [*REASONS, "taken"])

    def count_kinds(self, text, whose):
        """Counts the texts with a right and with a full outer join."""
        for kind in translate.Query(text).kinds() & set(KEPT):
            self.count["%s %s" % (KEPT[kind], whose)] += 1

    def has_kinds(self, whose):
        """Whether there were right and full outer joins."""
        return all(self.count["%s %s" % (name, whose)] for name in KEPT.values())

    def hold_refused(self, text, out, who, number=12):
        """A text that question 12 or 13 turns down."""
        self.count[who + ": E %d" % number] += 1
        if out != b"E\t%d\n" % number:
            why = {12: b"a key column is not taken", 13: b"there are too many conditions"}[number]
            self.difference(who, text, SQL=why, printed=out)

    @staticmethod
    def too_many_conditions(text):
        """Question 13."""
        return len(translate.Query(text).every_condition) > CONDITIONS

    def random_report(self, text, n, simplified, wrong, rng, orders):
        self.count["random reports"] += 1
        self.count["random reports of %d tables" % n] += 1
        if not simplified:
            self.count["random reports that are not simplified"] += 1
        if wrong:
            self.hold_key_columns(wrong, False, CHANCE)
            for program in ("report", "direct"):
                self.hold_refused(wrong, self.run(program, wrong), program)
        if not self.hold_key_columns(text, True, CHANCE):
            return
        if self.too_many_conditions(text):
            for program in ("report", "direct"):
                self.hold_refused(text, self.run(program, text), program, 13)
            return
        self.count_kinds(text, CHANCE)
        rows, counts, tallies = self.sql(text)
        if rows:
            self.count["random reports with rows"] += 1
        self.hold_direct(text, self.run("direct", text), rows, counts, "direct")
        given = [b""]
        if n > 1:
            given += [reports.order_lines(rng, n) for _ in range(orders)]
        for order in given:
            self.hold_report(text + order, self.run("report", text + order), rows, counts, tallies, "report")

    def file(self, path, rng, orders):
        with open(path, "rb") as file:
            text = file.read()
        stored = {}
        for program in ("report", "direct"):
            with open(path[:-len("in")] + program, "rb") as file:
                stored[program] = file.read()
        number = turned_down(stored["direct"])
        if number in range(2, 8):
            self.count["files turned down by questions 2 to 7"] += 1
            return
        taken = self.hold_key_columns(text, number != 12, FILES)
        if number == 12:
            self.count["files turned down by question 12"] += 1
            for program in ("report", "direct"):
                self.hold_refused(text, stored[program], "stored " + program)
                self.hold_refused(text, self.run(program, text), program)
        if number == 12 or not taken:
            return
        if self.too_many_conditions(text):
            self.count["files turned down by question 13"] += 1
            for program in ("report", "direct"):
                self.hold_refused(text, stored[program], "stored " + program, 13)
                self.hold_refused(text, self.run(program, text), program, 13)
            return
        self.count["files"] += 1
        self.count_kinds(text, FILES)
        rows, counts, tallies = self.sql(text)
        self.hold_direct(text, stored["direct"], rows, counts, "stored direct")
        self.hold_direct(text, self.run("direct", text), rows, counts, "direct")
        if turned_down(stored["report"]) != 9:
            self.hold_report(text, stored["report"], rows, counts, tallies, "stored report")
            self.hold_report(text, self.run("report", text), rows, counts, tallies, "report")
        query = without_order(text)
        given = [b""]
        n = len(translate.Query(text).tables)
        if n > 1:
            given += [reports.order_lines(rng, n) for _ in range(orders)]
        for order in given:
            if len(query + order) <= 16384:
                self.hold_report(query + order, self.run("report", query + order), rows, counts, tallies,
                                 "report")


def main(name, about, system, ask, count, refuses, run_plan=None):
    """The whole of a check: arguments, texts, counts. Gives the exit status."""
    parser = argparse.ArgumentParser(
        prog=name, usage=name + " [--seed N] [--count N] [--orders N] [REPORT DIRECT]",
        description=about, formatter_class=argparse.RawDescriptionHelpFormatter)
    parser.add_argument("--seed", type=int, default=1)
    parser.add_argument("--count", type=int)
    parser.add_argument("--orders", type=int, default=3)
    parser.add_argument("programs", nargs="*")
    given = parser.parse_args()
    if len(given.programs) not in (0, 2):
        parser.error("no program or two")
    if given.programs:
        path = dict(zip(("report", "direct"), given.programs))

        def run(program, text):
            try:
                done = subprocess.run([path[program]], input=text, stdout=subprocess.PIPE, timeout=30)
            except subprocess.TimeoutExpired:
                check.difference(program + " does not end", text)
                return b""
            if done.returncode != 0:
                check.difference("%s ends with status %d" % (program, done.returncode), text)
            return done.stdout
    else:
        import reference
        run = reference.run
    start = time.monotonic()
    check = Check(ask, run, refuses, run_plan)
    rng = random.Random(given.seed)
    for folder in ("trials", "samples"):
        for path_in in sorted(glob.glob(os.path.join(top, folder, "*.in"))):
            check.file(path_in, rng, given.orders)
    for text, n, simplified, wrong in reports.texts(given.seed, count if given.count is None else given.count):
        if given.count is None and time.monotonic() - start > SECONDS:
            print("stopped after %d seconds; %d random reports were asked for" % (SECONDS, count))
            break
        check.random_report(text, n, simplified, wrong, rng, given.orders)
    print("%s, seed %d" % (system, given.seed))
    for counted in sorted(check.count):
        if counted != "differences":
            print("%7d %s" % (check.count[counted], counted))
    print("%d differences in %.0f seconds" % (check.count["differences"], time.monotonic() - start))
    enough = (check.count["direct: rows"] and check.count["report: rows"]
              and check.count["report: with a derived condition"]
              and check.count["report: with a derived condition at a pair"]
              and check.count["conditions counted by SQL: unknown of some rows"]
              and check.count["report: with a full outer join, rows added"]
              and check.count["report: with a full outer join, no row added"]
              and check.count["report: with a right outer join"]
              and check.has_key_columns(FILES) and check.has_kinds(FILES)
              and (check.count["random reports"] < ENOUGH
                   or check.has_key_columns(CHANCE) and check.has_kinds(CHANCE)))
    return 0 if enough and not check.count["differences"] else 1
