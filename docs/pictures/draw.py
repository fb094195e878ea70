#!/usr/bin/env python3
"""Draws the pictures of the pages, of the numbers in ../measured, into this folder. With --check it says whether those that are here
are the ones that it would draw. It needs Python 3 alone."""
import csv
import math
import pathlib
import sys

sys.dont_write_bytecode = True
from diagrams import chain, way_of_a_put
from svg import Picture

HERE = pathlib.Path(__file__).resolve().parent


def rows(name):
    """The rows of a table of ../measured, each as a dict."""
    with open(HERE.parent / "measured" / f"{name}.csv") as file:
        return list(csv.DictReader(file))


class Scale:
    """Where a number lies on an axis whose equal steps are equal ratios."""

    def __init__(self, least, most, at_least, at_most):
        self.logs = math.log10(least), math.log10(most)
        self.ends = at_least, at_most

    def __call__(self, number):
        (low, high), (begin, end) = self.logs, self.ends
        return begin + (math.log10(number) - low) / (high - low) * (end - begin)


def legend(picture, names, x, y):
    for i, name in enumerate(names):
        picture.line([(x, y - 4), (x + 18, y - 4)], f"line c{i}" + (" first" if i == 0 else ""))
        picture.text(x + 23, y, name)
        x += 42 + 7 * len(name)


def panel(picture, left, title, by_name, threads, up):
    """One small chart: nanoseconds a call by threads, a line a map."""
    top, bottom, width = 78, 268, 138
    picture.text(left, 64, title, "head")
    across = Scale(threads[0], threads[-1], left + 6, left + width - 6)
    for number in (1, 10, 100, 1000):
        if up.logs[0] <= math.log10(number) <= up.logs[1]:
            picture.line([(left, up(number)), (left + width, up(number))], "grid")
            picture.text(left - 4, up(number) + 4, str(number), "small", "end")
    for count in threads:
        picture.text(across(count), bottom + 16, str(count), "small", "middle")
    for i, numbers in reversed(list(enumerate(by_name))):
        points = [(across(count), up(number)) for count, number in zip(threads, numbers) if number]
        picture.line(points, f"line c{i}" + (" first" if i == 0 else ""))
        for x, y in points:
            picture.dot(x, y, f"c{i}")


def speed(file, table, names, threads, panels, title, told):
    """A chart a workload, side by side."""
    picture = Picture(44 + 176 * len(panels), 306, title, told)
    up = Scale(1.5, 400, 268, 78)
    picture.text(14, 20, title, "head")
    legend(picture, names, 14, 42)
    for at, (workload, told_as) in enumerate(panels):
        found = {int(row["threads"]): row for row in table if row["workload"] == workload}
        by_name = [[float(found[count][name] or 0) for count in threads] for name in names]
        panel(picture, 36 + 176 * at, told_as, by_name, threads, up)
    picture.text(picture.size[0] / 2, 302, "threads", "small", "middle")
    return file, picture


def bars(file, groups, names, unit, along, title, told):
    """Bars by group: of each map one, the number at its end."""
    picture = Picture(640, 34 + sum(26 + 17 * len(numbers) for _, numbers in groups), title, told)
    picture.text(14, 20, title, "head")
    y = 46
    for group, numbers in groups:
        picture.text(14, y, group, "small")
        y += 8
        for name, number in numbers:
            picture.text(142, y + 11, name, "", "end")
            picture.box(150, y, along(number) - 150, 13, f"c{names.index(name)}", 1)
            picture.text(along(number) + 6, y + 11, f"{number:,.{1 if number < 100 and number % 1 else 0}f} {unit}", "small")
            y += 17
        y += 18
    return file, picture


def of_threads():
    names = ["Samvolip", "dashmap", "TBB", "libcuckoo", "libcds F", "mutex"]
    panels = [("A", "reads"), ("C", "half writes"), ("D", "new keys, growing"), ("E", "one key")]
    table = [row for row in rows("calls") if row["keys"] == "dense"]
    four = {row["workload"]: row for row in table if row["threads"] == "4"}
    told = "Nanoseconds a call, of the whole machine. By four threads: " + "; ".join(
        f"{said}: " + ", ".join(f"{name} {four[workload][name]}" for name in names) for workload, said in panels)
    return names, table, panels, told


def pictures():
    """Each picture with its file's name."""
    names, table, panels, told = of_threads()
    yield speed("speed", table, names, [1, 2, 4, 8], panels, "Nanoseconds a call, by threads (less is better)", told)
    java = ["Samvolip", "JCTools", "ConcurrentHashMap"]
    by_threads = rows("java")
    workloads = [("A", "reads"), ("C", "half writes"), ("D", "new keys, growing"), ("E", "one key")]
    yield speed("speed-java", by_threads, java, [1, 2, 4], workloads,
                "Nanoseconds a call beside Java's maps, by threads", "Nanoseconds a call: " + "; ".join(
                    f"{row['workload']} by {row['threads']}: " + ", ".join(f"{name} {row[name]}" for name in java) for row in by_threads))
    names = ["Samvolip", "dashmap", "TBB", "libcuckoo", "ConcurrentHashMap", "JCTools"]
    parts = [("half", "half of all puts take at most"), ("99", "99 in a hundred"), ("99.9", "999 in a thousand"), ("all", "the longest")]
    times = {row["part"]: row for row in rows("put_times") if row["threads"] == "1"}
    groups = [(said, [(name, float(times[part][name])) for name in names]) for part, said in parts]
    yield bars("put-times", groups, names, "ns", Scale(20, 2e6, 150, 540),
               "How long a put takes while a map grows to 32,768 keys, one thread (steps of ten)",
               "; ".join(f"{said}: " + ", ".join(f"{name} {number:,g} ns" for name, number in numbers) for said, numbers in groups))
    names = ["Samvolip", "dashmap", "TBB", "libcuckoo", "ConcurrentHashMap", "JCTools", "libcds F"]
    memory = next(row for row in rows("million") if row["what"] == "memory" and row["threads"] == "1")
    groups = [("a million keys", [(name, float(memory[name])) for name in names])]
    yield bars("memory", groups, names, "bytes a key", lambda number: 150 + 4 * number, "Memory of a map of a million keys",
               ", ".join(f"{name} {number:g} bytes a key" for name, number in groups[0][1]))
    yield "chain", chain()
    yield "put", way_of_a_put()


def main():
    stale = []
    for name, picture in pictures():
        file, text = HERE / f"{name}.svg", str(picture)
        if "--check" in sys.argv[1:]:
            stale += [] if file.exists() and file.read_text() == text else [file.name]
        else:
            file.write_text(text)
    if stale:
        print(f"pictures: not as draw.py draws them: {' '.join(stale)}")
    return 1 if stale else 0


if __name__ == "__main__":
    sys.exit(main())
