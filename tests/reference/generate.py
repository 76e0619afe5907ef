#!/usr/bin/env python3
"""Random small report texts.

    generate.py SEED COUNT DIRECTORY    writes DIRECTORY/0000.in, 0001.in, ...

The same seed and count give the same texts. About half of the texts are whole;
the others are whole texts with one to three faults. Whole texts are answered
or get 11 or 13; the faults bring in 2 to 7, 9 and 12. A third of the outer joins
are right outer joins, and a third of the last joins full outer joins.

In most texts `=` lines share columns, so that chains of them link columns that no
line compares; lines stand twice, also the other way round and below another join.
One text of twenty has so many links that it has about 64 conditions in all.
"""
import os
import random
import sys

OPERATORS = ["<", "=", "<=", ">", "<>", ">="]
ODD_FIELDS = ["", "-", "-0", "0", "00", "01", "+1", "-1", "1", "2", "3", "5", "7", "8", "9",
              "9999", "10000", "0001", "2147483647", "2147483648", "-2147483647",
              "-2147483648", "-2147483649", "99999999999", "1 ", "a", "I", "L", "R", "F", "O",
              "==", "=<", "=>", "!=", "<>", "<=", "=", "T", "D", "J", "C", "K", "P"]


class Text:
    """A text as lines of fields, with what the faults need to know."""

    def __init__(self):
        self.lines = []

    def add(self, *fields):
        self.lines.append([str(f) for f in fields])

    def bytes(self):
        return "".join("\t".join(line) + "\n" for line in self.lines).encode("latin-1")

    def starting(self, letters):
        return [i for i, line in enumerate(self.lines) if line and line[0] in letters]


def tree(rng, n, flat):
    """Random pairs over n tables: any two free nodes, or one long chain."""
    free, pairs = list(range(n)), []
    rng.shuffle(free)
    for i in range(n - 1):
        if flat:
            left, right = free.pop(), free.pop(0)
        else:
            left, right = (free.pop(rng.randrange(len(free))) for _ in range(2))
        if rng.random() < 0.3:
            left, right = right, left
        pairs.append((left, right))
        free.append(n + i)
    return pairs


def whole(rng, size=None):
    """A text with every count right. One table of four has a key column. Conditions name any
    table under their join; one text of five is made so that its tree is simplified: no join
    names a table right of an outer join that lies in a side which the join blanks."""
    if size is None and rng.random() < 0.05:
        return crowded(rng)
    text = Text()
    n = size or rng.choice([1, 2, 2, 2, 3, 3, 3, 3, 3, 4, 4, 4, 4, 5, 5, 6])
    most = rng.choice([1, 2, 3, 3, 4, 4]) if n < 5 else rng.choice([1, 2, 2, 3])
    if rng.random() < 0.06:
        most = rng.choice([6, 8, 17 if n == 2 else 7])
    blanks = rng.choice([0, 0.1, 0.1, 0.3])
    highest = rng.choice([0, 1, 1, 2, 2, 3])
    columns = []
    for _ in range(n):
        columns.append(rng.choice([1, 1, 1, 2, 2, 3]))
        text.add("T", columns[-1])
        rows = most if most > 5 else 0 if rng.random() < 0.07 else rng.randint(1, most)
        for _ in range(rows):
            text.add("D", *(value(rng, highest, blanks) for _ in range(columns[-1])))
        if rng.random() < 0.25:
            make_key_column(rng, text, rng.randrange(columns[-1]), rows)

    simplified = rng.random() < 0.2
    outer_share = rng.choice([0.3, 0.6, 0.6, 0.9])
    loose = rng.choice([0, 0.3, 0.6])           # how many conditions beside the first
    stamps = [rng.randrange(c) for c in columns]            # columns that links share
    links = rng.choice([0, 0.3, 0.6, 0.9])      # how many C lines compare two of these by `=`
    earlier = []                                # C lines of the joins below
    under = [{t} for t in range(n)]
    weak = [set() for _ in range(n)]            # tables right of an outer join below
    for i, (left, right) in enumerate(tree(rng, n, rng.random() < 0.3)):
        kind = "L" if rng.random() < outer_share else "I"
        if i == n - 2 and rng.random() < 0.35:
            kind = "L"                          # F has the sets of L
            text.add("J", "F", left, right)
        elif kind == "L" and rng.random() < 0.35:
            text.add("J", "R", right, left)
        else:
            text.add("J", kind, left, right)
        lefts, rights = under[left], under[right]
        if simplified:
            rights = rights - weak[right]
            lefts = lefts - weak[left] if kind == "I" else lefts
        own = [condition(rng, columns, stamps, links,
                         rng.choice(sorted(lefts)), rng.choice(sorted(rights)))]
        while rng.random() < loose:
            any_table = sorted(lefts | rights)
            a, b = rng.choice(any_table), rng.choice(any_table)
            below = [line for line in earlier if {line[1], line[4]} <= set(any_table)]
            if rng.random() < 0.1:
                own.append(again(rng, rng.choice(own)))
            elif below and rng.random() < 0.2:
                own.append(again(rng, rng.choice(below)))
            elif len(lefts) > 1 and rng.random() < links / 2:           # a link within one side
                own.append(condition(rng, columns, stamps, 1, *rng.sample(sorted(lefts), 2)))
            elif rng.random() < 0.3 or a == b:
                constant = rng.choice([0, 0, 1, 1, 2, highest, -1])
                own.append(["K", a, rng.randrange(columns[a]), rng.choice(OPERATORS), constant])
            else:
                own.append(condition(rng, columns, stamps, links, a, b))
        rng.shuffle(own)
        earlier += [line for line in own if line[0] == "C"]
        for fields in own:
            text.add(*fields)
        under.append(under[left] | under[right])
        weak.append(weak[left] | weak[right] | (under[right] if kind == "L" else set()))
    if rng.random() < 0.7:
        add_order(rng, text, n)
    return text


def add_order(rng, text, n):
    for left, right in tree(rng, n, rng.random() < 0.3):
        text.add("P", left, right)


def crowded(rng):
    """A text of two to four tables that `=` lines over many columns link: from some 20 to some
    hundreds of conditions in all, most often 56 to 68."""
    text = Text()
    n = rng.choice([2, 2, 2, 3, 3, 4])
    columns = [rng.choice({2: [7, 8, 8], 3: [4, 5, 5], 4: [3, 3, 4, 8]}[n]) for _ in range(n)]
    for count in columns:
        text.add("T", count)
        for _ in range(rng.choice([0, 1, 1, 2])):
            text.add("D", *(value(rng, 1, 0.05) for _ in range(count)))
    kind = rng.choice(["I", "I", "L"])
    for i in range(1, n):
        left = n + i - 2 if i > 1 else 0
        if i == n - 1 and rng.random() < 0.2:
            text.add("J", "F", left, i)
        elif kind == "L" and rng.random() < 0.3:
            text.add("J", "R", i, left)
        else:
            text.add("J", kind, left, i)
        other = rng.randrange(i)
        for column in range(columns[i]):                    # all columns with one of another table
            text.add("C", other, 0, "=", i, column)
        if i == 1:
            for column in range(1, columns[0]):             # and all of table 0
                text.add("C", 0, column, "=", 1, 0)
    for _ in range(rng.choice([0, 0, 1, 1, 2, 4, 8])):      # most of these say what follows
        a, b = rng.sample(range(n), 2)
        if rng.random() < 0.2:
            text.add("K", a, 0, "<=", 1)
        else:
            text.add("C", a, rng.randrange(columns[a]), "=", b, rng.randrange(columns[b]))
    if rng.random() < 0.5:
        add_order(rng, text, n)
    return text


def again(rng, line):
    """The same line once more, a C line sometimes the other way round, with its operator turned."""
    if line[0] == "K" or rng.random() < 0.5:
        return list(line)
    turned = line[3].translate(str.maketrans("<>", "><")) if line[3] != "<>" else "<>"
    return ["C", line[4], line[5], turned, line[1], line[2]]


def value(rng, highest, blanks):
    if rng.random() < blanks:
        return "-"
    if rng.random() < 0.02:
        return rng.choice([-2147483647, 2147483647, -1, -10])
    return rng.randint(0, highest)


def make_key_column(rng, text, column, rows):
    """Makes a column the key column of the last table: it has numbers, no two of them equal."""
    text.lines[-1 - rows].append(str(column))
    numbers = rng.sample(range(rows + 2), rows)
    if rows and rng.random() < 0.1:
        numbers[rng.randrange(rows)] = rng.choice([-2147483647, 2147483647])
    for line, number in zip(text.lines[len(text.lines) - rows:], numbers):
        line[1 + column] = str(number)


def condition(rng, columns, stamps, links, a, b):
    if rng.random() < 0.3:
        a, b = b, a
    if rng.random() < links:
        return ["C", a, stamps[a], "=", b, stamps[b]]
    op = rng.choice(OPERATORS + ["=", "=", "=", "="])
    return ["C", a, rng.randrange(columns[a]), op, b, rng.randrange(columns[b])]


# --------------------------------------------------------------------- faults
# Each changes a Text in place. Some leave a text that is still whole.

def some_line(rng, text, letters):
    places = text.starting(letters)
    return rng.choice(places) if places else None


def odd_field(rng, text):
    line = rng.choice(text.lines)
    line[rng.randrange(len(line))] = rng.choice(ODD_FIELDS)


def field_more_or_less(rng, text):
    line = rng.choice(text.lines)
    if rng.random() < 0.5 and len(line) > 1:
        line.pop()
    else:
        line.append(rng.choice(ODD_FIELDS[:12]))


def line_lost(rng, text):
    text.lines.pop(rng.randrange(len(text.lines)))


def line_twice(rng, text):
    i = rng.randrange(len(text.lines))
    text.lines.insert(i, list(text.lines[i]))


def lines_exchanged(rng, text):
    i, j = (rng.randrange(len(text.lines)) for _ in range(2))
    text.lines[i], text.lines[j] = text.lines[j], text.lines[i]


def table_count(rng, text):
    i = some_line(rng, text, "T")
    if i is not None:
        set_field(text, i, 1, rng.choice(["0", "1", "2", "3", "8", "9", "9999"]))


def tables_more(rng, text):
    for _ in range(rng.choice([1, 9])):
        text.lines.insert(0, ["T", "1"])


def cells_more_or_less(rng, text):
    i = some_line(rng, text, "D")
    if i is not None:
        if rng.random() < 0.5 and len(text.lines[i]) > 2:
            text.lines[i].pop()
        else:
            text.lines[i].append(rng.choice(["-", "0", "1"]))


def key_column_wrong(rng, text):
    """A key column that there is not, or most often one with a blank or with equal cells."""
    i = some_line(rng, text, "T")
    if i is None or len(text.lines[i]) < 2:
        return
    column = rng.choice([0, 0, 0, 1, 2, 3, 8, 9999, text.lines[i][1]])
    text.lines[i][2:] = [str(column)]
    rows = i + 1
    while rows < len(text.lines) and text.lines[rows][:1] == ["D"]:
        rows += 1
    if rows > i + 1 and rng.random() < 0.7:
        one, other = (rng.randrange(i + 1, rows) for _ in range(2))
        place = 1 + int(column) if str(column).isdigit() else 1
        if place < len(text.lines[one]) and place < len(text.lines[other]):
            text.lines[one][place] = "-" if rng.random() < 0.3 else text.lines[other][place]


def set_field(text, i, place, field):
    if place < len(text.lines[i]):
        text.lines[i][place] = str(field)


def side_changed(rng, text):
    i = some_line(rng, text, "J")
    if i is not None:
        set_field(text, i, rng.choice([2, 3]), rng.randrange(8))


def kind_changed(rng, text):
    joins = text.starting("J")
    for i in joins:
        if rng.random() < 0.6:
            set_field(text, i, 1, rng.choice("ILRF" if i == joins[-1] else "ILR"))


def full_outer_too_early(rng, text):
    """A full outer join that is not the last join: a form fault, most often."""
    i = some_line(rng, text, "J")
    if i is not None:
        set_field(text, i, 1, "F")


def condition_changed(rng, text):
    i = some_line(rng, text, "CK")
    if i is not None:
        choices = [1, 2] if text.lines[i][0] == "K" else [1, 2, 4, 5]
        set_field(text, i, rng.choice(choices), rng.randrange(4))


def tables_renamed(rng, text):
    """Two tables change places in all C lines: one that is not under its join, a join
    without a C line between its sides, or another whole text."""
    a, b = (str(rng.randrange(4)) for _ in range(2))
    for i in text.starting("C"):
        line = text.lines[i]
        for place in (1, 4):
            if place < len(line) and line[place] in (a, b):
                line[place] = b if line[place] == a else a


def join_with_k_only(rng, text):
    for i in text.starting("C"):
        if rng.random() < 0.5:
            text.lines[i] = text.lines[i][:4] + ["1"]
            text.lines[i][0] = "K"


def conditions_more(rng, text):
    i = some_line(rng, text, "CK")
    if i is not None:
        all_now = len(text.starting("CK"))
        for _ in range(max(0, rng.choice([32, 33]) - all_now)):
            text.lines.insert(i, list(text.lines[i]))


def order_wrong(rng, text):
    i = some_line(rng, text, "P")
    if i is None:
        text.add("P", rng.randrange(3), rng.randrange(3))
    elif rng.random() < 0.4:
        text.lines.pop(i)
    else:
        set_field(text, i, rng.choice([1, 2]), rng.randrange(9))


FAULTS = [odd_field, field_more_or_less, line_lost, line_twice, lines_exchanged, table_count,
          tables_more, cells_more_or_less, cells_more_or_less, key_column_wrong,
          key_column_wrong, side_changed, side_changed,
          kind_changed, kind_changed, full_outer_too_early, condition_changed, condition_changed, tables_renamed,
          tables_renamed, join_with_k_only, join_with_k_only, conditions_more,
          order_wrong, order_wrong, order_wrong]


def byte_fault(rng, data):
    data = bytearray(data)
    what = rng.randrange(4)
    place = rng.randrange(len(data)) if data else 0
    byte = rng.choice(list(b"0123456789-+\t\n\r |TDJCKPILRF<=>") + [0, 128, 255])
    if what == 0 and data:
        data[place] = byte
    elif what == 1 and data:
        del data[place]
    elif what == 2:
        data.insert(place, byte)
    else:
        del data[place:]                        # the text ends early
    return bytes(data)


def one(rng, size=None):
    """One random text."""
    text = whole(rng, size)
    if rng.random() < 0.5:
        return text.bytes()
    if rng.random() < 0.2:
        return byte_fault(rng, text.bytes())
    for _ in range(rng.choice([1, 1, 1, 2, 3])):
        if text.lines:
            rng.choice(FAULTS)(rng, text)
    return text.bytes()


def texts(seed, count, size=None):
    rng = random.Random(seed)
    return [one(rng, size) for _ in range(count)]


if __name__ == "__main__":
    if len(sys.argv) != 4:
        sys.exit("usage: generate.py SEED COUNT DIRECTORY")
    os.makedirs(sys.argv[3], exist_ok=True)
    for i, data in enumerate(texts(int(sys.argv[1]), int(sys.argv[2]))):
        with open(os.path.join(sys.argv[3], "%04d.in" % i), "wb") as file:
            file.write(data)
