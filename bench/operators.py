#!/usr/bin/env python3
"""Times calq's joins, groups and sorts beside sqlite3, which imports the same rows and answers the same query.

usage: bench/operators.py [CASE ..]     (default: all of join, group_few, group_many, csv_group_few, csv_group_many, csv_order)

Each case runs at a quarter, a half and its full size: 262,144 rows in each of two inline tables for the join, 2^20 inline rows for the groups, a file of
8 MiB for the others. It takes the proved program, crates/calq/out/calq, that `rt ci` or `rt run` leaves, and the command sqlite3. Each time is the
least of three runs in seconds, the memory is the greatest resident size of a run in MiB. Answers are compared, in order where the query asks for one.
"""
import itertools
import json
import os
import sys
import tempfile

from timing import fill, numbers, program, timed

FEW = 16


def write_rows(path, rows):
    with open(path, "w") as out:
        out.writelines(",".join(map(str, row)) + "\n" for row in rows)


def inline(folder, tables):
    """A model of inline tables of whole numbers, and the files that sqlite3 imports."""
    listed, imports = [], []
    for name, columns, rows in tables:
        operand = {"columns": [f"{column}:int" for column in columns], "rows": rows}
        listed.append({"name": name, "factory": "cal.MemTableFactory", "operand": operand})
        path = os.path.join(folder, f"{name}.csv")
        write_rows(path, rows)
        imports += [f"CREATE TABLE {name}({', '.join(f'{column} INTEGER' for column in columns)});", ".mode csv", f".import {path} {name}"]
    model = os.path.join(folder, "model.json")
    with open(model, "w") as out:
        json.dump({"defaultSchema": "S", "schemas": [{"name": "S", "tables": listed}]}, out)
    return model, imports


def in_file(folder, size):
    """A model of one table in a file of so many bytes, with a column of few different numbers and one of many, and its import."""
    path = os.path.join(folder, "table.csv")
    rows = (f'{count},"name, {n // 2**16}",{n // 2**8 % FEW},{n // 2**14}\n' for count, n in enumerate(numbers()))
    fill(path, "ID:long,NAME:string,FEW:int,MANY:int\n", rows, size)
    model = os.path.join(folder, "model.json")
    table = {"name": "T", "factory": "org.apache.calcite.adapter.csv.CsvTableFactory", "operand": {"file": path}}
    with open(model, "w") as out:
        json.dump({"defaultSchema": "S", "schemas": [{"name": "S", "tables": [table]}]}, out)
    created = "CREATE TABLE T(ID INTEGER, NAME TEXT, FEW INTEGER, MANY INTEGER);"
    return model, [created, ".mode csv", f".import --skip 1 {path} T"]


def random_numbers(count):
    return list(itertools.islice(numbers(), count))


def join(folder, size):
    count = size * 2**16
    left = random_numbers(count)
    right = left[::-1]
    model, imports = inline(folder, [("T", ["A"], [[n] for n in left]), ("U", ["B"], [[n] for n in right])])
    return count, model, imports, "SELECT COUNT(*) FROM T JOIN U ON A = B"


def group(folder, size, groups):
    count = size * 2**18
    rows = [[n // 2**8 % groups(count), n % 1000] for n in random_numbers(count)]
    model, imports = inline(folder, [("T", ["A", "B"], rows)])
    return count, model, imports, "SELECT A, SUM(B) FROM T GROUP BY A"


def csv(folder, size, query):
    model, imports = in_file(folder, size * 2**21)
    return size * 2, model, imports, query


CASES = {
    "join": join,
    "group_few": lambda folder, size: group(folder, size, lambda count: FEW),
    "group_many": lambda folder, size: group(folder, size, lambda count: count // 4),
    "csv_group_few": lambda folder, size: csv(folder, size, "SELECT FEW, SUM(ID) FROM T GROUP BY FEW"),
    "csv_group_many": lambda folder, size: csv(folder, size, "SELECT MANY, SUM(ID) FROM T GROUP BY MANY"),
    "csv_order": lambda folder, size: csv(folder, size, "SELECT ID, NAME, MANY FROM T ORDER BY MANY DESC, ID"),
}


def lines(answer, ordered):
    rows = [line.replace(b" ", b"").replace(b"'", b"") for line in answer.splitlines()]
    return rows if ordered else sorted(rows)


def main():
    calq = program("calq")
    print("case            size     calq s  sqlite3 s  ratio  calq MiB")
    for name in sys.argv[1:] or CASES:
        for size in (1, 2, 4):
            with tempfile.TemporaryDirectory() as folder:
                count, model, imports, query = CASES[name](folder, size)
                ours, memory, answer = timed([calq, model, query])
                theirs, _, other = timed(["sqlite3", ":memory:", *imports, ".mode list", ".separator ,", query + ";"])
                ordered = "ORDER BY" in query
                if lines(answer.split(b"\n", 1)[1], ordered) != lines(other, ordered):
                    sys.exit(f"the answers of {name} at {count} differ")
                print(f"{name:<15} {count:<8} {ours:6.3f}  {theirs:9.3f}  {ours / theirs:5.2f}  {memory:8.1f}")


if __name__ == "__main__":
    main()
