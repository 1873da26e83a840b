#!/usr/bin/env python3
"""Times csv_rows over a table's file of up to 8 MiB beside sqlite3, which imports the same file.

usage: bench/csv_file.py [MIB ..]     (default: 1 2 4 8)

It takes the proved program, crates/csv_rows/out/csv_rows, that `rt ci` or `rt run` leaves, and the command sqlite3. Each time is
the least of three runs in seconds, the memory is the greatest resident size of a run in MiB.
"""
import os
import sys
import tempfile

from timing import fill, numbers, program, sizes, timed


def write_table(path, limit):
    """Rows of a number, a quoted text and a number, as many as fit; answers how many."""
    rows = (f'{count},"name, {number // 2**16}",{number // 2**11}\n' for count, number in enumerate(numbers()))
    return fill(path, "ID:long,NAME:string,UNITS:int\n", rows, limit)


def main():
    csv_rows = program("csv_rows")
    print("MiB  rows     ours s  sqlite3 s  ratio  ours MiB")
    for size in sizes([1, 2, 4, 8]):
        with tempfile.TemporaryDirectory() as folder:
            path = os.path.join(folder, "table.csv")
            count = write_table(path, size * 2**20)
            ours, memory, answer = timed([csv_rows, path])
            theirs, _, other = timed(
                ["sqlite3", ":memory:", "CREATE TABLE T(ID INTEGER, NAME TEXT, UNITS INTEGER);", ".mode csv",
                 f".import --skip 1 {path} T", "SELECT count(*) FROM T;"])
            if answer.split()[-1] != other.split()[-1] or int(other) != count:
                sys.exit(f"the numbers of rows of {size} MiB differ")
            print(f"{size:<4} {count:<8} {ours:6.3f}  {theirs:9.3f}  {ours / theirs:5.2f}  {memory:8.1f}")


if __name__ == "__main__":
    main()
