#!/usr/bin/env python3
"""Times sql_tokens over texts of growing size: statements with names, numbers, quoted texts and comments.

usage: bench/tokens.py [KIB ..]     (default: 256 512 1024 2048)

It takes the proved program, crates/sql_tokens/out/sql_tokens, that `rt ci` or `rt run` leaves. Each time is the least of three
runs in seconds, the memory is the greatest resident size of a run in MiB. No peer is timed beside it.
"""
import itertools
import os
import tempfile

from timing import fill, program, sizes, timed


def write_text(path, limit):
    """Statements, as many as fit."""
    lines = (f"SELECT A{count}, \"b {count}\" * {count} + 1 FROM S.T{count % 7} -- statement {count}\n"
             f"WHERE A{count} >= {count % 1000} AND \"b {count}\" <> 'it''s {count}';\n" for count in itertools.count())
    fill(path, "", lines, limit)


def main():
    sql_tokens = program("sql_tokens")
    print("KiB    tokens    seconds  MiB")
    for size in sizes([256, 512, 1024, 2048]):
        with tempfile.TemporaryDirectory() as folder:
            path = os.path.join(folder, "text.sql")
            write_text(path, size * 1024)
            spent, memory, answer = timed([sql_tokens, path])
            print(f"{size:<6} {answer.split()[-1].decode():<9} {spent:7.3f}  {memory:6.1f}")


if __name__ == "__main__":
    main()
