"""Random reports that questions 2 to 7 and 12 do not turn down, by how they are made.

One to eight tables, some of them empty, a third of them with a key column, blanks
in the cells, all operators, C lines between the sides, C lines with both tables on
one side, K lines, lines that stand twice, in one join or in two, and lines that stand
there once more read from the other side. In most reports many conditions are about the
tables' first columns, so that chains of `=` lines link three columns and more; question
13 turns few of them down. A third of the outer joins are right outer joins, and a third
of the last joins full outer joins. Conditions name any table under their join; one report
of five is made so that its tree is simplified. Of some reports there is another text,
with a key column that question 12 turns down. The same seed gives the same texts.
"""
import itertools
import random

OPERATORS = ["<", "=", "<=", ">", "<>", ">="]
EXTREMES = [-2147483647, -2147483646, -1, 2147483646, 2147483647]


def text_of(lines):
    return "".join("\t".join(str(f) for f in line) + "\n" for line in lines).encode("ascii")


def order(rng, n):
    """The pairs of a random tree over n tables, as nodes."""
    shape = rng.choice(["any", "any", "any", "left", "right"])
    free, pairs = list(range(n)), []
    rng.shuffle(free)
    for i in range(n - 1):
        if shape == "any" or i == 0:
            left, right = (free.pop(rng.randrange(len(free))) for _ in range(2))
        else:
            left, right = free.pop(), free.pop(0)
            if shape == "right":
                left, right = right, left
        pairs.append((left, right))
        free.append(n + i)
    return pairs


def order_lines(rng, n):
    """The same as P lines, as a text."""
    return text_of(["P", left, right] for left, right in order(rng, n))


def tables(rng, n):
    most = rng.choice({1: [3, 12, 40], 2: [3, 6, 14], 3: [2, 4, 7], 4: [2, 4, 5]}.get(n, [2, 2, 3, 4]))
    blanks = rng.choice([0, 0.05, 0.05, 0.2, 0.5])
    empty = rng.choice([0, 0, 0, 0.1, 0.3])
    lowest = rng.choice([0, 0, -1, 7])
    highest = lowest + rng.choice([0, 1, 1, 2, 3] if n < 5 else [0, 1, 1, 2])
    if n in (2, 3) and rng.random() < 0.03:                 # results of about 256 rows
        most, highest = rng.randint(17, 30), lowest + rng.randint(2, 12)
    lines, columns = [], []

    def value():
        if rng.random() < 0.02:
            return rng.choice(EXTREMES)
        return rng.randint(lowest, highest)
    for _ in range(n):
        columns.append(rng.choice([1, 1, 1, 2, 2, 3, 8]))
        lines.append(["T", columns[-1]])
        rows = 0 if rng.random() < empty else rng.randint(min(most, 2) if most < 17 else 15, most)
        for _ in range(rows):
            lines.append(["D"] + ["-" if rng.random() < blanks else value()
                                  for _ in range(columns[-1])])
        if rng.random() < 0.3:
            key_column(rng, lines, rows, rng.randrange(columns[-1]), lowest, highest)
    return lines, columns, value


def key_column(rng, lines, rows, column, lowest, highest):
    """Makes a column the key column of the last table, which has so many rows: no two of its
    numbers are equal. Most are among those that other columns have."""
    lines[-1 - rows].append(column)
    numbers = list(range(lowest, max(highest, lowest + rows) + 1)) + EXTREMES[:1] + EXTREMES[-1:]
    for line, number in zip(lines[len(lines) - rows:], rng.sample(numbers, rows)):
        line[1 + column] = number


def wrong_key_column(rng, lines):
    """The lines with a key column that question 12 turns down: one that does not exist, or one
    with a blank or with two equal cells."""
    lines = [list(line) for line in lines]
    at = rng.choice([i for i, line in enumerate(lines) if line[0] == "T"])
    rows = list(itertools.takewhile(lambda line: line[0] == "D", lines[at + 1:]))
    columns = lines[at][1]
    column = rng.randrange(columns)
    if not rows or rng.random() < 0.3:
        column = columns + rng.choice([0, 0, 1, 9999 - columns])
    elif len(rows) == 1 or rng.random() < 0.4:
        rng.choice(rows)[1 + column] = "-"
    else:
        one, other = rng.sample(rows, 2)
        one[1 + column] = other[1 + column]
    lines[at][2:] = [column]
    return lines


def report(rng):
    """The lines of one report, without P lines, its count of tables, and whether its tree
    is simplified: no join names a table right of an outer join in a side that it blanks."""
    n = rng.choice([1, 2, 2, 2, 3, 3, 3, 3, 4, 4, 4, 4, 5, 5, 5, 6, 6, 7, 7, 8])
    lines, columns, value = tables(rng, n)
    outer = rng.choice([0.2, 0.6, 0.6, 0.9])        # the share of outer joins
    more = rng.choice([0, 0.3, 0.6])                # how many conditions beside the first
    equal = rng.choice([2, 6, 30])                  # how much = is favoured
    shared = rng.choice([0, 0.6, 0.6, 1])           # how many of the columns are a table's first
    careful = rng.random() < 0.2                    # the tree must be simplified
    simplified = True
    left_conditions = 32
    under = [{t} for t in range(n)]
    right_of_outer = [set() for _ in range(n)]      # per node: the tables right of an outer join in it
    links = []                                      # the C lines of the joins before

    def side(table):
        return [table, 0 if rng.random() < shared else rng.randrange(columns[table])]

    def operator():
        return rng.choice(OPERATORS + ["="] * equal)

    for i, (left, right) in enumerate(order(rng, n)):
        kind = "L" if rng.random() < outer else "I"
        join_line = ["J", kind, left, right]
        if i == n - 2 and rng.random() < 0.35:
            kind = "L"                              # a full outer join blanks what L blanks
            join_line = ["J", "F", left, right]
        elif kind == "L" and rng.random() < 0.35:
            join_line = ["J", "R", right, left]
        lefts, rights = under[left], under[right]
        # the tables right of an outer join in a side that this join blanks
        weak = right_of_outer[right] | (right_of_outer[left] if kind == "I" else set())
        if careful:
            lefts, rights = lefts - weak, rights - weak
        between = [rng.choice(sorted(lefts)), rng.choice(sorted(rights))]
        rng.shuffle(between)
        own = [["C"] + side(between[0]) + [operator()] + side(between[1])]
        left_conditions -= 1
        # each join to come needs one
        while rng.random() < more and left_conditions > n - 2 - i:
            a, b = (rng.choice(sorted(lefts | rights)) for _ in range(2))
            if rng.random() < 0.2:
                again = list(rng.choice(own + [line for line in links if {line[1], line[4]} <= lefts | rights]))
                if again[0] == "C" and rng.random() < 0.5:
                    again[1:] = again[4:] + again[3:4] + again[1:3]
                own.append(again)
            elif a == b or rng.random() < 0.3:
                own.append(["K"] + side(a) + [rng.choice(OPERATORS), value()])
            else:
                own.append(["C"] + side(a) + [operator()] + side(b))
            left_conditions -= 1
        named = {line[1] for line in own} | {line[4] for line in own if line[0] == "C"}
        simplified = simplified and not named & weak
        links += [line for line in own if line[0] == "C"]
        rng.shuffle(own)
        lines.append(join_line)
        lines += own
        under.append(under[left] | under[right])
        right_of_outer.append(right_of_outer[left] | right_of_outer[right]
                              | (under[right] if kind == "L" else set()))
    return lines, n, simplified


def texts(seed, count):
    """Texts without P lines, each with its count of tables, whether its tree is simplified, and
    for one of four the same with a key column that question 12 turns down, else None."""
    rng = random.Random(seed)
    for _ in range(count):
        lines, n, simplified = report(rng)
        wrong = text_of(wrong_key_column(rng, lines)) if rng.random() < 0.25 else None
        yield text_of(lines), n, simplified, wrong
