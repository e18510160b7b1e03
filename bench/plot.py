#!/usr/bin/env python3
"""Draws the pictures of bench/README.md, bench/figures/*.svg, from the tables bench/figures/*.csv.

    python3 bench/plot.py            writes the pictures
    python3 bench/plot.py --check    writes nothing, and ends with status 1 if one differs from what it would write

It also checks the tables: each begins with a line of its date, machine and command, each row has all columns, and
bench/README.md names each table and shows each picture.
"""
import csv
import pathlib
import re
import sys

import charts

FIGURES = pathlib.Path(__file__).resolve().parent / "figures"
LEAN = ["Gubzelk", "lean SQLite"]


def table(name):
    """the rows of a table, each a map from its column's name to a text"""
    with open(FIGURES / f"{name}.csv", encoding="utf-8", newline="") as file:
        about = file.readline()
        rows = list(csv.DictReader(file, restkey="more"))
    if not about.startswith("# 20") or not rows or any("more" in row or None in row.values() for row in rows):
        sys.exit(f"plot.py: {name}.csv has no line of its date, no row, or a row without all columns")
    return rows


def numbers(row, *columns):
    return [float(row[column]) if row[column] else None for column in columns]


def select(rows, /, **wanted):
    return [row for row in rows if all(row[column] == value for column, value in wanted.items())]


def spread(values):
    """the least and the greatest of some ratios"""
    low, high = min(values), max(values)
    low, high = (f"{v:.0f}" if v >= 9.95 else f"{v:.1f}" for v in (low, high))
    return low if low == high else f"{low} to {high}"


def commas(text):
    """a text whose numbers of four digits and more have commas"""
    return re.sub(r"\d{4,}", lambda number: f"{int(number[0]):,}", text)


def jobs():
    names = {"read": "read", "build": "build and keep", "write": "write again", "invert": "invert", "inserts": "invert INSERTs",
             "hot": "combine, same rows", "apart": "combine, apart", "recorded": "combine, as recorded"}
    kinds = ["integers", "texts", "blobs"]
    rows, groups, ratios = table("jobs"), [], {}
    for job, name in names.items():
        items = []
        for row in select(rows, job=job):
            ours, theirs = numbers(row, "ours_ms", "lean_sqlite_ms")
            ratios.setdefault(job, []).append(theirs / ours)
            items.append((kinds.index(row["rows"]), theirs / ours, f"{theirs / ours:.1f} ({ours:g} : {theirs:g} ms)"))
        groups.append((name, items))
    changes = ratios["invert"] + ratios["inserts"]
    combines = ratios["hot"] + ratios["apart"] + ratios["recorded"]
    return charts.bars(
        f"Reading is {spread(ratios['read'])} times as fast as lean SQLite, writing again {spread(ratios['write'])}, "
        f"inverting {spread(changes)}, combining {spread(combines)}",
        ["integers", "texts of 100 bytes", "blobs of 4 KB"], "times as fast as lean SQLite", groups, mark=1)


def pieces():
    rows, parts, ratios = table("pieces"), [], []
    names = {"integers": "integers", "texts": "texts of 100 bytes", "blob1": "blobs of 1 MB", "blob16": "a blob of 16 MB",
             "wide": "rows of 2,000 columns", "names": "names of 1,024 bytes", "sections": "sections of one change"}
    sizes = ["1", "100", "1000", "65536", "whole"]
    for kind, name in names.items():
        found = [numbers(select(rows, input=kind, piece_bytes=size)[0], "ours_MB_per_s", "lean_sqlite_MB_per_s") for size in sizes]
        ratios += [ours / lean for ours, lean in found[1:4]]
        parts.append((name, ["1", "100", "1k", "64k", "all"], list(zip(*found))))
    return charts.panels(
        f"In pieces of 100 bytes and more, parsing is {spread(ratios)} times as fast as lean SQLite's streaming reader",
        LEAN, "MB a second", "bytes of a piece", parts, columns=4)


def applying():
    rows, parts, ratios = table("applying"), [], []
    for kind, name in (("integers", "rows of integers"), ("texts", "texts of 100 bytes"), ("blobs", "blobs of 4 KB")):
        found = select(rows, rows=kind, operation="mixed")
        lines = [numbers(row, "apply_ms", "lean_sqlite_ms") for row in found]
        parts.append((name, [charts.short(float(row["changes"])) for row in found], list(zip(*lines))))
    for row in rows:
        ours, lean = numbers(row, "apply_ms", "lean_sqlite_ms")
        ratios.append(lean / ours)
    return charts.panels(f"Applying a changeset is {spread(ratios)} times as fast as sqlite3changeset_apply", LEAN,
                         "ms", "changes (INSERT, UPDATE and DELETE in turn)", parts)


def workers():
    rows, parts = table("applying"), []
    sizes = ["1000", "10000", "100000", "1000000", "3800"]
    for kind, name in (("integers", "rows of integers"), ("texts", "texts of 100 bytes"), ("blobs", "blobs of 4 KB")):
        series = []
        for size in sizes:
            line = [None] * 4
            for row in select(rows, rows=kind, operation="mixed", changes=size):
                one, *more = numbers(row, "apply_ms", "workers_2_ms", "workers_4_ms", "workers_8_ms")
                line = [1] + [time / one for time in more]
            series.append(line)
        parts.append((name, ["1", "2", "4", "8"], series))
    return charts.panels("More than one worker pays for rows of 4 KB, and takes longer for small rows",
                         [f"{int(size):,} changes" for size in sizes], "times the time of one worker", "workers", parts,
                         powers=False, mark=1)


def library():
    rows = [(row["job"], *numbers(row, "call_ns", "pipe_ns")) for row in table("library")]
    idle = rows[0]
    return charts.pairs(f"A call that does little takes {idle[1]:.0f} ns; a line through a pipe {idle[2] / 1000:.0f} µs",
                        ["a call", "a line through a pipe"], "ns", rows)


def whole_way():
    rows = {row["way"]: float(row["ms"]) / 100 for row in table("whole_way")}
    broker, replica, groups, single = rows.values()
    colours = (0, 0, 1, 1)
    items = [(way, [(colour, us, f"{us:.2f} µs")]) for colour, (way, us) in zip(colours, rows.items())]
    return charts.bars(
        f"The broker takes {broker:.1f} µs for a changeset; with an SQLite database {replica / groups:.1f} times as long as "
        f"SQLite's own groups", ["with the broker", "SQLite alone"], "µs for a changeset", items)


def drive_name(row):
    return commas(f"{row['changesets']}, {row['subscribers']} subscriber") + ("s" if row["subscribers"] != "1" else "")


def drives():
    rows, found, ratios = table("drives"), [], {}
    for row in rows:
        ours, theirs = numbers(row, "ours_work_ms", "sqlite_work_ms")
        ratios.setdefault(row["subscribers"], []).append(theirs / ours)
        found.append((drive_name(row), ours, theirs))
    return charts.pairs(
        f"A drive works {spread(ratios['1'])} times as fast as SQLite with one subscriber, {spread(ratios['16'])} with 16",
        ["Gubzelk, in threads", "lean SQLite, one thread"], "ms of work", found)


def drive_phases():
    rows, ratios = [], []
    for row in table("drives"):
        sums = []
        for side, name in (("ours", drive_name(row)), ("sqlite", "the same by lean SQLite")):
            values = numbers(row, f"{side}_reading_ms", f"{side}_work_ms", f"{side}_report_ms")
            sums.append(sum(values))
            rows.append((name, values))
        ratios.append(sums[1] / sums[0])
    return charts.stacks(f"With reading and the report, a drive is {spread(ratios)} times as fast as SQLite",
                         ["reading the input", "work", "writing the report"], "ms", rows)


def threads():
    rows, parts, ratios = table("threads"), [], []
    columns = "broker_1000_per_s", "mutex_1000_per_s", "channel_1000_per_s"
    for inserts, name in (("1", "changesets of 1 INSERT"), ("100", "changesets of 100 INSERTs")):
        found = select(rows, inserts=inserts)
        lines = [numbers(row, *columns) for row in found]
        ratios += [broker / mutex for broker, mutex, _ in lines]
        parts.append((name, [row["publishers"] for row in found], list(zip(*lines))))
    return charts.panels(f"The broker places {spread(ratios)} times the changesets of a C program with two mutexes",
                         ["broker", "C with mutexes", "a channel alone"], "1,000 changesets a second", "publishers", parts,
                         columns=2)


def deliveries():
    rows, parts = table("deliveries"), []
    counts = ["4", "16", "64"]
    columns = [f"threads_{count}_1000_per_s" for count in (1, 2, 4, 8)]
    for batch, name in (("1", "deliveries of one entry"), ("16", "deliveries of 16 entries")):
        series = [numbers(select(rows, subscribers=count, batch=batch)[0], *columns) for count in counts]
        parts.append((name, ["1", "2", "4", "8"], series))
    return charts.panels("Deliveries of 16 entries gain by threads, those of one entry wait for the lock",
                         [f"{count} subscribers" for count in counts], "1,000 deliveries a second", "threads", parts, columns=2)


def durable():
    columns = ["ours_durable_per_s", "sqlite_wal_full_per_s", "sqlite_default_per_s", "sqlite_wal_normal_per_s", "ours_in_memory_per_s"]
    rows = table("durable")
    lines = [numbers(row, *columns) for row in rows]
    ratios = [ours / full for ours, full, *_ in lines]
    return charts.panels(
        f"A durable replica commits {spread(ratios)} times as often as SQLite in WAL, FULL",
        ["replica", "WAL, FULL", "default journal", "WAL, NORMAL (no sync)", "in memory"], "commits a second", "changes a commit",
        [("", [row["changes"] for row in rows], list(zip(*lines)))], columns=1)


def machines():
    parts = ["writing", "waiting", "feeding", "accepting", "combining"]
    rows, shares = [], []
    for row in table("machines"):
        values = numbers(row, *(f"{part}_s" for part in parts))
        shares.append(100 * sum(values[2:]) / float(row["all_s"]))
        rows.append((f"batches of {row['batch']}", values))
    low, high = min(shares), max(shares)
    return charts.stacks(f"Catching up, the broker takes {low:.0f} to {high:.0f} % of a replica's time; larger batches save the rest",
                         ["writing its file", "waiting for messages", "feeding", "accepting", "combining"], "seconds", rows)


def subscriptions():
    rows = [(f"{row['subscriptions']} subscription" + ("s" if row["subscriptions"] != "1" else ""),
             *numbers(row, "without_rows_in_use_MB", "with_rows_in_use_MB")) for row in table("subscriptions_memory")]
    return charts.pairs(f"Over 50,000 rows of 250 bytes a subscription with rows takes {rows[0][2]:.1f} MB, one without {rows[0][1]:.1f}",
                        ["without rows", "with rows"], "MB in use", rows)


def tables_memory():
    rows = [(f"{int(row['count']):,} rows, {row['rows']}", *numbers(row, "ours_MB", "sqlite_MB")) for row in table("tables_memory")
            if int(row["count"]) >= 100000]
    return charts.pairs(f"Tables take {spread([ours / theirs for _, ours, theirs in rows])} times the memory of SQLite's",
                        ["Gubzelk", "SQLite"], "MB at most", rows)


def changes():
    combined, parts, ratios = table("combining"), [], []
    for name, rows in (("invert", table("inverting")), ("combine, same rows", select(combined, keys="same rows")),
                       ("combine, rows apart", select(combined, keys="apart")),
                       ("combine, as recorded", select(combined, keys="apart as recorded")),
                       ("combine, keys in no order", select(combined, keys="apart in no order"))):
        words = [charts.short(round(float(row["changes"]), -3)) for row in rows]
        lines = [numbers(row, "ours_1000_changes_per_s", "lean_sqlite_1000_changes_per_s") for row in rows]
        ratios += [ours / lean for ours, lean in lines]
        parts.append((name, words, list(zip(*lines))))
    return charts.panels(f"Up to 1,000,000 changes, inverting and combining are {spread(ratios)} times as fast as lean SQLite", LEAN,
                         "1,000 changes a second", "changes (rows of integers)", parts)


def calls():
    rows, parts, growth = table("calls"), [], []
    columns = [f"after_{count}_ns" for count in (1000, 10000, 100000, 1000000)]
    for history in ("plain", "hole", "returned", "many in flight", "many subscriptions"):
        series = []
        for row in select(rows, history=history):
            if row["call"].endswith("delivery"):
                continue
            line = numbers(row, *columns)
            series.append(line)
            growth.append([value for value in line if value][-1] / line[0])
        parts.append((history, ["1k", "10k", "100k", "1M"], series))
    return charts.panels(f"After a history up to 1,000 times as long a call takes at most {max(growth):.2f} times as long",
                         ["take, desk", "ack, desk", "take, world", "ack, world"], "ns", "entries before the call", parts,
                         powers=False)


def histories():
    groups, growth = [], []
    for row in table("histories"):
        values = numbers(row, *(f"after_{count}_ns" for count in (1000, 10000, 100000)))
        growth.append(values[-1] / values[0])
        groups.append((commas(row["history"]), [(i, value, f"{value:.0f}") for i, value in enumerate(values)]))
    return charts.bars(f"A line of a script takes at most {max(growth):.2f} times as long after a history 100 times as long",
                       ["1,000 entries or lines", "10,000", "100,000"], "ns for a line", groups)


def gate():
    columns = "code_minutes", "tests_minutes", "edits_minutes", "programs_minutes"
    rows = [(row["crates"], [value or 0 for value in numbers(row, *columns)]) for row in table("gate")]
    code = sum(values[0] for _, values in rows)
    whole = sum(sum(values) for _, values in rows)
    return charts.stacks(f"The gate takes {whole:.0f} minutes of processor time, {code:.0f} of them for code",
                         ["code", "tests", "edits", "programs"], "minutes of processor time", rows)


PICTURES = [jobs, pieces, applying, workers, library, whole_way, drives, drive_phases, threads, deliveries, durable, machines,
            subscriptions, tables_memory, changes, calls, histories, gate]


def main():
    if sys.argv[1:] not in ([], ["--check"]):
        sys.exit("usage: python3 bench/plot.py [--check]")
    drawn = {f"{draw.__name__}.svg": draw() for draw in PICTURES}
    if not sys.argv[1:]:
        for name, text in drawn.items():
            (FIGURES / name).write_text(text, encoding="utf-8", newline="\n")
        return
    wrong = []
    for name, text in drawn.items():
        if not (FIGURES / name).is_file() or (FIGURES / name).read_text(encoding="utf-8") != text:
            wrong.append(f"{name} is not what plot.py draws")
    readme = (FIGURES.parent / "README.md").read_text(encoding="utf-8")
    for path in sorted(FIGURES.iterdir()):
        if f"figures/{path.name})" not in readme:
            wrong.append(f"bench/README.md doesn't name {path.name}")
        if path.suffix == ".csv":
            table(path.stem)
        elif path.name not in drawn:
            wrong.append(f"{path.name} is none of its pictures")
    for line in wrong:
        print(f"plot.py: {line}", file=sys.stderr)
    print(f"{len(drawn)} pictures")
    sys.exit(1 if wrong else 0)


if __name__ == "__main__":
    main()
