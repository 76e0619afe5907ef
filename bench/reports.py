#!/usr/bin/env python3
"""Writes the reports that are timed, and their SQL, into a folder.

    reports.py FOLDER

Each report is NAME.in, with NAME.load.sql (its tables) and NAME.query.sql (its rows).
"""
import os
import random
import sys

TOP = os.path.join(os.path.dirname(os.path.abspath(__file__)), "..")
sys.dont_write_bytecode = True
sys.path.insert(0, os.path.join(TOP, "tests", "sql"))
import translate                                                        # noqa: E402


def line(*fields):
    return "\t".join(str(field) for field in fields) + "\n"


def table(columns, rows, *key_column):
    return line("T", columns, *key_column) + "".join(line("D", *row) for row in rows)


def keys(random, count, start=0):
    """Each number once, in a random sequence."""
    numbers = list(range(start, start + count))
    random.shuffle(numbers)
    return [[number] for number in numbers]


def chain(count, kind, conditions, order=()):
    """Tables 0, 1, .. joined one after another to table 0."""
    text, node = "", 0
    for t in range(1, count):
        text += line("J", kind, node, t) + "".join(conditions(t))
        node = count + t - 1
    return text + "".join(line("P", *pair) for pair in order)


def one_slot(count):
    """Numbers that all have one slot of the engine's index (docs/PERFORMANCE.md), so that their chain has them all."""
    slot = lambda number: (number + 2 ** 31) * 1640531527 // 16777216 % 256
    numbers = [number for number in range(count * 300) if slot(number) == slot(0)]
    return [[number] for number in numbers[:count]]


def same_key(t):
    return [line("C", 0, 0, "=", t, 0)]


def linked_tables(random):
    """Eight tables in groups of linked columns: column 0 of all, column 1 of all, column 2 of the first four, columns 3
    and 4 of the first two. Of the 64 pairs of linked columns 32 are lines, the others are derived: 64 conditions in all."""
    groups = [8, 8, 4, 2, 2]
    width = lambda t: sum(size > t for size in groups)
    text = "".join(table(width(t), [key * width(t) for key in keys(random, 160)]) for t in range(8))
    more = 13                       # lines beside those that link each column to the table before
    for t in range(1, 8):
        text += line("J", "L", 0 if t == 1 else 6 + t, t)
        for column in range(width(t)):
            text += line("C", t - 1, column, "=", t, column)
            if t > 1 and more:
                text += line("C", t, column, "=", t - 2, column)
                more -= 1
    return text


def reports():
    r = random.Random(1)
    yield "first", open(os.path.join(TOP, "samples", "first.in")).read()
    yield "week", open(os.path.join(TOP, "samples", "week.in")).read()
    only = table(1, keys(r, 256))
    yield "one-table-256", only
    tables = "".join(table(1, keys(r, 256)) for _ in range(8))
    yield "eight-tables-256", tables + chain(8, "L", same_key)
    yield "eight-tables-inner", tables + chain(8, "I", same_key)
    # a K line joins no pair, so each of five tables gets a blanking step, and best match follows
    some = "".join(table(2, [[k, r.randrange(4)] for k in range(256)]) for _ in range(6))
    yield "blanking-steps", some + chain(6, "L", lambda t: same_key(t) + [line("K", t, 1, ">=", 1)])
    few = "".join(table(1, [[k] for k in range(2)]) for _ in range(8))
    # tables that a tree joins to table 0, joined to each other first
    yield "products", few + chain(8, "L", same_key, [(7, 6), (8, 5), (9, 4), (10, 3), (11, 2), (12, 1), (13, 0)])
    yield "inequality", table(1, keys(r, 250)) + table(2, [[k, k + 1] for k in range(0, 250)]) + line("J", "L", 0, 1) \
        + line("C", 0, 0, ">=", 1, 0) + line("C", 0, 0, "<", 1, 1)
    wide = "".join(table(8, [[k, 1, 2, 3, 4, 5, 6, 7] for k in range(64)]) for _ in range(8))
    yield "cells-4096", wide + chain(8, "L", same_key)
    yield "refused-11", table(1, [[1]] * 256) + table(1, [[1]] * 2) + line("J", "I", 0, 1) + line("C", 0, 0, "=", 1, 0)
    # table 1 is the left side, and its rows have the rows of table 0 from the last to the first
    yield "falling-256", table(1, [[k] for k in range(256)]) + table(1, [[255 - k] for k in range(256)]) \
        + line("J", "L", 1, 0) + same_key(1)[0]
    yield "not-equal", table(1, [[1]] * 256) + table(1, [[1]] * 255 + [[2]]) + line("J", "L", 0, 1) + line("C", 0, 0, "<>", 1, 0)
    yield "never-true", table(2, [[1, 2]] * 256) + table(2, [[1, 1]] * 256) + line("J", "L", 0, 1) + same_key(1)[0] \
        + line("C", 0, 1, "<", 1, 1)
    hours = "".join(table(1, [[3600 * k] for [k] in keys(r, 256)]) for _ in range(6))
    yield "hours", hours + chain(6, "L", same_key)
    # each table is joined to the table before it; sixteen keys stand in all tables, the others in one
    sparse = "".join(table(1, [[k if k < 16 else 256 * t + k] for [k] in keys(r, 256)]) for t in range(7))
    yield "mostly-blank", sparse + chain(7, "L", lambda t: [line("C", t - 1, 0, "=", t, 0)])
    yield "three-rows", "".join(table(1, [[k] for k in range(3)]) for _ in range(8)) + chain(8, "L", same_key)
    # each of 32 conditions is counted over 65,536 pairs; some cells are blank
    gaps = "".join(table(2, [[k, r.choice(["-"] + 9 * [r.randrange(300)])] for [k] in keys(r, 256)]) for _ in range(2))
    operators = (["<", "=", "<=", ">", "<>", ">="] * 6)[:31]
    yield "conditions-32", gaps + line("J", "L", 0, 1) + same_key(1)[0] + "".join(line("C", 0, 1, o, 1, 1) for o in operators)
    # 31 K lines of all operators, true of nearly all rows, so that each is counted and asked of each row; some cells are blank
    levels = table(3, [[k, r.choice(["-"] + 15 * [r.randrange(1000)]), 7] for [k] in keys(r, 256)])
    asked = ([(1, "<", 1000), (2, "=", 7), (1, "<=", 999), (1, ">", -1), (1, "<>", 1000), (1, ">=", 0)] * 6)[:31]
    yield "constants-31", table(1, keys(r, 256)) + levels + line("J", "L", 0, 1) + same_key(1)[0] \
        + "".join(line("K", 1, column, o, number) for column, o, number in asked)
    # reports above, with key columns
    rows = [row.split("\t")[1:] for row in only.splitlines()[1:]]
    yield "key-column-256", table(1, rows, 0)
    yield "key-columns-eight", tables.replace("T\t1\n", "T\t1\t0\n") + chain(8, "L", same_key)
    # every pair of cells is compared
    yield "key-column-one-slot", table(1, one_slot(256), 0)
    yield "no-key-column-one-slot", table(1, one_slot(256))
    yield "links-32", linked_tables(r)
    # each table is joined to the one before it by columns that no other line names, so that nothing is derived
    apart = "".join(table(2, [[k, 1000 * t + k] for k in range(1000 * t - 1000, 1000 * t - 900)]) for t in range(1, 9))
    yield "links-apart", apart + chain(8, "L", lambda t: [line("C", t - 1, 1, "=", t, 0)])


def main():
    if len(sys.argv) != 2:
        sys.exit(__doc__)
    folder = sys.argv[1]
    os.makedirs(folder, exist_ok=True)
    for number, (name, text) in enumerate(reports()):
        assert len(text) <= 16384, (name, len(text))
        path = os.path.join(folder, "%02d-%s" % (number, name))
        query = translate.Query(text.encode("ascii"))
        with open(path + ".in", "w") as out:
            out.write(text)
        with open(path + ".load.sql", "w") as out:
            out.write(";\n".join(query.make_tables()) + ";\n")
        with open(path + ".query.sql", "w") as out:
            out.write(query.whole() + ";\n")


if __name__ == "__main__":
    main()
