#!/usr/bin/env python3
"""Translates a report text into SQL.

    translate.py < text             the tables and one SELECT, for any SQL system
    translate.py --steps < text     the same, one table for each join

It is meant for texts that questions 2 to 7, 12 and 13 do not turn down and asks none
of them. The SQL is plain: SQLite and PostgreSQL both take it. Question 12 is left to
the SQL system: a key column is UNIQUE and must not be NULL, so the tables of a text
that question 12 turns down cannot be made or filled.

Table 1 becomes the SQL table t1. Its column t1_row holds the row numbers, its
columns t1_c0, t1_c1, .. the cells, blank as NULL. No two columns of a report
have the same name, so a condition can name its columns without a table, in
nested joins too. The J lines become one nested join expression: each join is
INNER JOIN, LEFT JOIN, RIGHT JOIN or FULL OUTER JOIN, with its sides as the line has
them, in parentheses, ON all its conditions joined by AND.
SQL's own rules do the rest: a comparison with NULL is unknown, and only rows
whose condition is true belong together. By the same rules a condition is true,
false or unknown of each row of its two tables' product, which make_tallies counts.

PostgreSQL takes a FULL OUTER JOIN only if each of its conditions is an `=` between the
two sides; SQLite takes all. For PostgreSQL any other one is written as a LEFT JOIN and,
by UNION ALL, the right rows for which no left row EXISTS.

SQL joins by the lines alone. The sets of a print, its plan and its U lines have derived
conditions too, document 02's item 6, which are worked out here. Sets and plan have a
right outer join as L with its sides exchanged and a full outer join as L, item 7.
"""
import functools
import sys


KINDS = {"I": "INNER JOIN", "L": "LEFT JOIN", "R": "RIGHT JOIN", "F": "FULL OUTER JOIN"}


class Query:
    def __init__(self, text, for_postgres=False):
        self.for_postgres = for_postgres
        self.tables = []            # (count of columns, rows as lists of fields)
        self.key_columns = []       # for each table the number of its key column, or None
        self.joins = []             # (kind, left, right, conditions as SQL), as the J line has them
        self.conditions = []        # the C and K lines as SQL, by their numbers
        self.named = []             # the tables that each of them names
        self.links = []             # of each that is an `=` C line its two columns, else None
        self.of_joins = []          # for each join the numbers of its conditions
        self.pairs = []             # (left, right)
        for line in text.decode("ascii").splitlines():
            letter, *fields = line.split("\t")
            if letter == "T":
                self.tables.append((int(fields[0]), []))
                self.key_columns.append(int(fields[1]) if len(fields) > 1 else None)
            elif letter == "D":
                self.tables[-1][1].append(fields)
            elif letter == "J":
                self.joins.append((fields[0], int(fields[1]), int(fields[2]), []))
                self.of_joins.append([])
            elif letter == "C":
                table, column, operator, other_table, other_column = fields
                self.condition("t%s_c%s %s t%s_c%s" % (
                    table, column, operator, other_table, other_column), int(table), int(other_table))
                if operator == "=":
                    self.links[-1] = frozenset([(int(table), int(column)), (int(other_table), int(other_column))])
            elif letter == "K":
                table, column, operator, constant = fields
                self.condition("t%s_c%s %s %s" % (table, column, operator, constant), int(table))
            elif letter == "P":
                self.pairs.append((int(fields[0]), int(fields[1])))
            else:
                raise ValueError("not a line of a report: %r" % line)

    def condition(self, sql, *tables):
        self.joins[-1][3].append(sql)
        self.of_joins[-1].append(len(self.conditions))
        self.conditions.append(sql)
        self.named.append(tables)
        self.links.append(None)

    # Kinds and sides of joins.

    @property
    def full_outer(self):
        """Whether the last join is a full outer join."""
        return bool(self.joins) and self.joins[-1][0] == "F"

    def kinds(self):
        return {kind for kind, _, _, _ in self.joins}

    def tree_pairs(self):
        """The pairs of the J lines, which are the order without P lines: that of a right outer
        join is exchanged."""
        return [(right, left) if kind == "R" else (left, right) for kind, left, right, _ in self.joins]

    @functools.cached_property
    def under(self):
        """For each node of the tree the tables under it."""
        under = [{t} for t in range(len(self.tables))]
        for _, left, right, _ in self.joins:
            under.append(under[left] | under[right])
        return under

    def joins_in(self, node):
        """The joins in a node of the tree, by their numbers from 0."""
        if node < len(self.tables):
            return []
        i = node - len(self.tables)
        return [*self.joins_in(self.joins[i][1]), *self.joins_in(self.joins[i][2]), i]

    def joins_asked(self):
        """The joins of the tree whose rows question 11 counts in every report, whatever its order:
        the last one, whose rows are those of the report, and the right side's of a full outer join."""
        last = [len(self.joins) - 1] if self.joins else []
        return self.joins_in(self.joins[-1][2]) + last if self.full_outer else last

    # Sets and derived conditions.

    def set_rule(self):
        """Each table's set of condition numbers, without what follows from it."""
        sets = [set() for _ in self.tables]
        for (kind, _, _, _), (left, right), own in zip(self.joins, self.tree_pairs(), self.of_joins):
            gain = set(own).union(*(sets[t] for number in own for t in self.named[number]))
            for t in self.under[right] | (self.under[left] if kind == "I" else set()):
                sets[t] |= gain
        return sets

    def linked(self, numbers):
        """The pairs of columns of different tables that a chain of these conditions links."""
        links = {self.links[number] for number in numbers} - {None}
        pairs = set()
        for one in set().union(*links):
            found, new = set(), {one}
            while new:
                found |= new
                new = set().union(*(link for link in links if link & new)) - found
            pairs |= {frozenset([one, other]) for other in found if other[0] != one[0]}
        return pairs

    @functools.cached_property
    def derivation(self):
        """The two columns of each derived condition that no line states, by their numbers, and
        each table's set with all that follows from it."""
        sets = self.set_rule()
        follows = [self.linked(numbers) for numbers in sets]
        stated = {link: self.links.index(link) for link in self.links if link}      # the lowest number
        derived = sorted(sorted(link) for link in set().union(*follows) - set(stated))
        stated.update((frozenset(link), len(self.links) + i) for i, link in enumerate(derived))
        return derived, [own | {stated[link] for link in links} for own, links in zip(sets, follows)]

    @functools.cached_property
    def every_condition(self):
        """All conditions by their numbers, those of the lines and the derived ones: each as SQL,
        with the tables that it names."""
        return list(zip(self.conditions, self.named)) + [
            ("t%d_c%d = t%d_c%d" % (*one, *other), (one[0], other[0])) for one, other in self.derivation[0]]

    def set_lines(self):
        """What the S lines of a print say."""
        return "".join("\t".join(["S", str(t)] + [str(number) for number in sorted(own)]) + "\n"
                       for t, own in enumerate(self.derivation[1]))

    def columns(self, t):
        return ["t%d_row" % t] + ["t%d_c%d" % (t, c) for c in range(self.tables[t][0])]

    def make_tables(self):
        """Statements that make the tables and fill them."""
        statements = []
        for t, (_, rows) in enumerate(self.tables):
            statements.append("CREATE TEMPORARY TABLE t%d (%s)" % (
                t, ", ".join([name + " INTEGER" for name in self.columns(t)] + self.constraints(t))))
            if rows:
                values = ["(%s)" % ", ".join([str(r)] + ["NULL" if f == "-" else f for f in row])
                          for r, row in enumerate(rows)]
                statements.append("INSERT INTO t%d VALUES %s" % (t, ", ".join(values)))
        return statements

    def constraints(self, t):
        """What SQL asks of the table's key column. Not PRIMARY KEY, where SQLite puts a number
        in the place of NULL."""
        if self.key_columns[t] is None:
            return []
        name = "t%d_c%d" % (t, self.key_columns[t])
        return ["UNIQUE (%s)" % name, "CHECK (%s IS NOT NULL)" % name]

    def select(self, source):
        """All row numbers, in table order, ordered by them, NULL last."""
        rows = ["t%d_row" % t for t in range(len(self.tables))]
        return "SELECT %s FROM %s ORDER BY %s" % (
            ", ".join(rows), source, ", ".join(row + " NULLS LAST" for row in rows))

    def joined(self, i, left, right):
        """The i-th join, of two sides that are written as SQL."""
        kind, left_node, right_node, conditions = self.joins[i]
        condition = " AND ".join(conditions)
        if kind != "F" or not self.for_postgres or self.postgres_takes(i):
            return "%s %s %s ON %s" % (left, KINDS[kind], right, condition)
        left_columns, right_columns = ([name for t in sorted(self.under[node]) for name in self.columns(t)]
                                       for node in (left_node, right_node))
        return ("(SELECT %s FROM %s LEFT JOIN %s ON %s UNION ALL "
                "SELECT %s FROM %s WHERE NOT EXISTS (SELECT 1 FROM %s WHERE %s)) AS both_kept" % (
                    ", ".join(left_columns + right_columns), left, right, condition,
                    ", ".join(["CAST(NULL AS INTEGER)"] * len(left_columns) + right_columns), right, left, condition))

    def postgres_takes(self, i):
        """Whether PostgreSQL takes the i-th join as a FULL OUTER JOIN: it wants conditions that a
        merge or a hash join can use, and that is here an `=` between the two sides."""
        _, left, right, _ = self.joins[i]
        return all(self.links[number] and self.under[left] & set(self.named[number])
                   and self.under[right] & set(self.named[number]) for number in self.of_joins[i])

    def nested(self, node=None):
        """A node (without one: the whole tree) as one join expression."""
        n = len(self.tables)
        if node is None:
            node = n + len(self.joins) - 1
            whole = True
        else:
            whole = False
        if node < n:
            return "t%d" % node
        _, left, right, _ = self.joins[node - n]
        text = self.joined(node - n, self.nested(left), self.nested(right))
        return text if whole else "(%s)" % text

    def whole(self):
        """The report as one SELECT."""
        return self.select(self.nested())

    def make_joins(self):
        """The report in steps: statements that make one table j0, j1, .. for each join."""
        n = len(self.tables)
        name = lambda node: "t%d" % node if node < n else "j%d" % (node - n)
        return ["CREATE TEMPORARY TABLE j%d AS SELECT * FROM %s" % (
                    i, self.joined(i, name(left), name(right)))
                for i, (_, left, right, _) in enumerate(self.joins)]

    def last(self):
        """The SELECT that ends the report in steps."""
        return self.select("j%d" % (len(self.joins) - 1) if self.joins else "t0")

    # A plan, as the M, B and Z lines of a print say it.

    def all_of(self, numbers):
        return " AND ".join(self.every_condition[int(number)][0] for number in numbers)

    def make_plan(self, lines):
        """Statements that run the plan: one table m0, m1, .. for each M line, b0, b1, .. for
        each B line, z for Z. Of a full outer join also the tables added, the rows of the right
        side that are in no row of the plan, and kept, all rows. Also the name of the last table."""
        n = len(self.tables)
        name = lambda node: "t%d" % node if node < n else "m%d" % (node - n)
        statements, pairs, steps, last = [], 0, 0, "t0"

        def make(table, select):
            statements.append("CREATE TEMPORARY TABLE %s AS %s" % (table, select))
            return table
        for line in lines:
            letter, *fields = line.split("\t")
            if letter == "M":
                kind, one, other, _, *numbers = fields
                # An outer product is a full outer join whose condition is always true.
                last = make("m%d" % pairs, "SELECT * FROM %s %s %s ON %s" % (
                    name(int(one)), {"I": "INNER JOIN", "L": "LEFT JOIN", "O": "FULL JOIN"}[kind],
                    name(int(other)), self.all_of(numbers) if kind != "O" else "1 = 1"))
                pairs += 1
            elif letter == "B":
                blanked, *numbers = map(int, fields)
                columns = []
                for t in range(n):
                    for column in self.columns(t):
                        columns.append(column if t != blanked else "CASE WHEN %s THEN %s END AS %s" % (
                            self.all_of(numbers), column, column))
                last = make("b%d" % steps, "SELECT %s FROM %s" % (", ".join(columns), last))
                steps += 1
            elif letter == "Z":
                last = make("z", self.best_match(last))
        if self.full_outer:
            make("added", self.added(last))
            last = make("kept", "SELECT %s FROM %s UNION ALL SELECT * FROM added" % (
                ", ".join("t%d_row" % t for t in range(n)), last))
        return statements, last

    def added(self, source):
        """The rows of the right side of the last join, read directly, that are in no row of a table:
        one that has the same row numbers, or is blank alike, in all tables of the right side."""
        right = self.joins[-1][2]
        rows = [("right_side.t%d_row" if t in self.under[right] else "CAST(NULL AS INTEGER) AS t%d_row") % t
                for t in range(len(self.tables))]
        same = " AND ".join("of_plan.t%d_row IS NOT DISTINCT FROM right_side.t%d_row" % (t, t)
                            for t in sorted(self.under[right]))
        return ("SELECT %s FROM (SELECT * FROM %s) AS right_side WHERE NOT EXISTS "
                "(SELECT 1 FROM %s AS of_plan WHERE %s)" % (", ".join(rows), self.nested(right), source, same))

    def make_tallies(self):
        """For each condition, a derived one too, the statement that gives its number and how often
        it is true, false and unknown: over all pairs of rows of its two tables, or all rows of its
        one."""
        return ["SELECT %d, COUNT(CASE WHEN %s THEN 1 END), COUNT(CASE WHEN NOT (%s) THEN 1 END), "
                "COUNT(CASE WHEN (%s) IS NULL THEN 1 END) FROM %s" % (
                    number, sql, sql, sql, " CROSS JOIN ".join("t%d" % t for t in tables))
                for number, (sql, tables) in enumerate(self.every_condition)]

    def best_match(self, source):
        """The rows of a table that are not wholly blank and that no other row dominates, once each."""
        rows = ["t%d_row" % t for t in range(len(self.tables))]
        some = " OR ".join("a.%s IS NOT NULL" % row for row in rows)
        equal = " AND ".join("(a.%s IS NULL OR a.%s = b.%s)" % (row, row, row) for row in rows)
        blanks = lambda alias: " + ".join(
            "CASE WHEN %s.%s IS NULL THEN 1 ELSE 0 END" % (alias, row) for row in rows)
        return ("SELECT DISTINCT %s FROM %s AS a WHERE (%s) AND NOT EXISTS "
                "(SELECT 1 FROM %s AS b WHERE %s AND %s > %s)" % (
                    ", ".join("a." + row for row in rows), source, some, source, equal, blanks("a"), blanks("b")))


if __name__ == "__main__":
    if sys.argv[1:] not in ([], ["--steps"]):
        sys.exit("usage: translate.py [--steps] < text")
    query = Query(sys.stdin.buffer.read())
    statements = query.make_tables()
    statements += query.make_joins() + [query.last()] if sys.argv[1:] else [query.whole()]
    for statement in statements:
        print(statement + ";")
