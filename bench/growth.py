#!/usr/bin/env python3
"""Times families of reports and draws how the time grows with rows, tables and conditions.

    growth.py PICTURE.svg

It needs what bench/run builds.
"""
import os
import random
import shutil
import subprocess
import sys

HERE = os.path.dirname(os.path.abspath(__file__))
sys.dont_write_bytecode = True
sys.path.insert(0, HERE)
import reports                                                          # noqa: E402
import translate                                                        # noqa: E402

FOLDER = os.path.join(HERE, "..", "target", "growth")
WIDTH, HEIGHT, LEFT, TOP = 300, 200, 56, 34


def families():
    r = random.Random(2)

    def tables(count, rows):
        return "".join(reports.table(1, reports.keys(r, rows)) for _ in range(count))

    def conditions(count):
        return lambda t: reports.same_key(t) * count

    yield "rows of each of 8 tables", [(n, tables(8, n) + reports.chain(8, "L", reports.same_key)) for n in range(0, 257, 32)]
    yield "tables of 256 rows", [(n, tables(n, 256) + reports.chain(n, "L", reports.same_key)) for n in range(1, 9)]
    yield "conditions on 2 tables of 256 rows", [(n, tables(2, 256) + reports.chain(2, "L", conditions(n))) for n in (1, 4, 8, 16, 24, 32)]


def times(texts):
    """Median microseconds of the proved library and of the Rust engine for each text."""
    shutil.rmtree(FOLDER, ignore_errors=True)
    os.makedirs(FOLDER)
    for i, (_, text) in enumerate(texts):
        query = translate.Query(text.encode("ascii"))
        for end, content in ((".in", text), (".load.sql", ";\n".join(query.make_tables()) + ";\n"), (".query.sql", query.whole() + ";\n")):
            with open(os.path.join(FOLDER, "%03d%s" % (i, end)), "w") as out:
                out.write(content)
    said = subprocess.run([os.path.join(HERE, "target/release/bench"), FOLDER, "--repeat", "200"], stdout=subprocess.PIPE, check=True, text=True)
    rows = [row.split("|") for row in said.stdout.splitlines()[2:]]
    return [tuple(float(row[k].split("(")[1].split(")")[0]) for k in (3, 4)) for row in rows]


def draw(name, xs, points, at):
    top = max(max(pair) for pair in points) * 1.1
    right = max(xs)

    def place(x, y):
        return "%.1f,%.1f" % (at + LEFT + WIDTH * x / right, TOP + HEIGHT - HEIGHT * y / top)

    parts = ['<text x="%d" y="20" font-weight="bold">%s</text>' % (at + LEFT, name)]
    parts.append('<path d="M%d,%d v%d h%d" fill="none" stroke="#444"/>' % (at + LEFT, TOP, HEIGHT, WIDTH))
    for share in (0.25, 0.5, 0.75, 1):
        y = TOP + HEIGHT - HEIGHT * share
        parts.append('<path d="M%d,%.1f h%d" stroke="#ddd"/>' % (at + LEFT, y, WIDTH))
        parts.append('<text x="%d" y="%.1f" text-anchor="end">%.0f</text>' % (at + LEFT - 5, y + 4, top * share))
    for x in xs:
        parts.append('<text x="%s" y="%d" text-anchor="middle">%d</text>' % (place(x, 0).split(",")[0], TOP + HEIGHT + 16, x))
    for k, colour in ((0, "#1f5fa8"), (1, "#c05a1a")):
        parts.append('<polyline fill="none" stroke="%s" stroke-width="2" points="%s"/>' % (
            colour, " ".join(place(x, pair[k]) for x, pair in zip(xs, points))))
    return parts


def main():
    if len(sys.argv) != 2:
        sys.exit(__doc__)
    parts, at = [], 0
    for name, texts in families():
        xs = [x for x, _ in texts]
        points = times([(x, text) for x, text in texts])
        print(name)
        for x, (proved, rust) in zip(xs, points):
            print("  %4d  proved %.1f  Rust %.1f" % (x, proved, rust))
        parts += draw(name, xs, points, at)
        at += LEFT + WIDTH + 30
    parts.append('<text x="%d" y="%d" fill="#1f5fa8">proved library</text>' % (LEFT, TOP + HEIGHT + 40))
    parts.append('<text x="%d" y="%d" fill="#c05a1a">Rust engine with hash joins</text>' % (LEFT + 110, TOP + HEIGHT + 40))
    parts.append('<text x="%d" y="%d">median microseconds of a call of the report</text>' % (LEFT + 310, TOP + HEIGHT + 40))
    with open(sys.argv[1], "w") as out:
        out.write('<svg xmlns="http://www.w3.org/2000/svg" width="%d" height="%d" font-family="sans-serif" font-size="12">\n' % (at, TOP + HEIGHT + 56))
        out.write('<rect width="100%" height="100%" fill="#fff"/>\n' + "\n".join(parts) + "\n</svg>\n")


if __name__ == "__main__":
    main()
