#!/usr/bin/env python3
"""Times calq's filter over a table's file of up to 8 MiB beside sqlite3, which imports the same file and answers the same query.

usage: bench/csv_filter.py [MIB ..]     (default: 1 2 4 8)

It takes the proved program, crates/calq/out/calq, that `rt ci` or `rt run` leaves, and the command sqlite3. Each time is the
least of three runs in seconds, the memory is the greatest resident size of a run in MiB. The numbers of rows are compared.
"""
import os
import sys
import tempfile

from csv_file import write_table
from timing import program, sizes, timed

MODEL = (
    '{"defaultSchema":"S","schemas":[{"name":"S","tables":[{"name":"T",'
    '"factory":"org.apache.calcite.adapter.csv.CsvTableFactory","operand":{"file":"%s"}}]}]}'
)
QUERY = "SELECT ID, NAME, UNITS * 2 AS TWICE FROM T WHERE UNITS > 524288 AND NAME <> 'x'"


def main():
    calq = program("calq")
    print("MiB  rows     kept     calq s  sqlite3 s  ratio  calq MiB")
    for size in sizes([1, 2, 4, 8]):
        with tempfile.TemporaryDirectory() as folder:
            path = os.path.join(folder, "table.csv")
            count = write_table(path, size * 2**20)
            model = os.path.join(folder, "model.json")
            with open(model, "w") as out:
                out.write(MODEL % path)
            ours, memory, answer = timed([calq, model, QUERY])
            theirs, _, other = timed(
                ["sqlite3", ":memory:", "CREATE TABLE T(ID INTEGER, NAME TEXT, UNITS INTEGER);", ".mode csv",
                 f".import --skip 1 {path} T", ".mode quote", QUERY + ";"])
            kept = answer.count(b"\n") - 1
            if kept != other.count(b"\n"):
                sys.exit(f"the answers over {size} MiB differ")
            print(f"{size:<4} {count:<8} {kept:<8} {ours:6.3f}  {theirs:9.3f}  {ours / theirs:5.2f}  {memory:8.1f}")


if __name__ == "__main__":
    main()
