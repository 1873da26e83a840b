#!/usr/bin/env python3
"""Times calq over one inline table beside sqlite3, which imports the same rows and answers the same query.

usage: bench/inline_rows.py [ROWS ..]     (default: 65536 262144 1048576)

It takes the proved program, crates/calq/out/calq, that `rt ci` or `rt run` leaves, and the command sqlite3. Each time is the
least of three runs in seconds, the memory is the greatest resident size of a run in MiB. Both answers are compared.
"""
import itertools
import os
import sys
import tempfile

from timing import numbers, program, sizes, timed


def main():
    calq = program("calq")
    print("rows      calq s  sqlite3 s  ratio  calq MiB  us/row")
    for count in sizes([2**16, 2**18, 2**20]):
        with tempfile.TemporaryDirectory() as folder:
            values = [number // 2**11 for number in itertools.islice(numbers(), count)]
            model = os.path.join(folder, "model.json")
            with open(model, "w") as out:
                out.write('{"defaultSchema":"S","schemas":[{"name":"S","tables":[{"name":"T","type":"custom",')
                out.write('"factory":"cal.MemTableFactory","operand":{"columns":["A:int"],"rows":[')
                out.write(",".join(f"[{number}]" for number in values))
                out.write("]}}]}]}")
            rows = os.path.join(folder, "rows.csv")
            with open(rows, "w") as out:
                out.write("\n".join(map(str, values)) + "\n")
            ours, memory, answer = timed([calq, model, "SELECT A FROM T WHERE A > 500000"])
            theirs, _, other = timed(
                ["sqlite3", ":memory:", "CREATE TABLE T(A INTEGER);", ".mode csv", f".import {rows} T",
                 ".mode list", "SELECT A FROM T WHERE A > 500000;"])
            if answer.split(b"\n", 1)[1] != other:
                sys.exit(f"the answers over {count} rows differ")
            print(f"{count:<9} {ours:6.3f}  {theirs:9.3f}  {ours / theirs:5.2f}  {memory:8.1f}  {1e6 * ours / count:6.2f}")


if __name__ == "__main__":
    main()
