#!/usr/bin/env python3
"""Times the planning of chain and star joins of 2 to 8 tables at budgets of 2,000 and 20,000 firings.

usage: bench/planning.py [BUDGET ..]     (default: 2000 20000)

It takes the proved program, crates/plan_counts/out/plan_counts, that `rt ci` or `rt run` leaves. Each table has one row, so that nearly all
time is that of planning. Each time is the least of three runs in seconds, the memory is the greatest resident size of a run in MiB.
"""
import json
import os
import sys
import tempfile

from timing import program, sizes, timed

TABLES = 8


def model():
    tables = [
        {"name": f"T{k}", "factory": "cal.MemTableFactory", "operand": {"columns": [f"A{k}:int", f"B{k}:int"], "rows": [[1, 1]]}}
        for k in range(TABLES)
    ]
    return json.dumps({"defaultSchema": "S", "schemas": [{"name": "S", "tables": tables}]})


def chain(count):
    """Each table joined with the one before it."""
    joins = "".join(f" JOIN T{k} ON B{k - 1} = A{k}" for k in range(1, count))
    return f"SELECT A0, B{count - 1} FROM T0{joins}"


def star(count):
    """Each table joined with the first one."""
    joins = "".join(f" JOIN T{k} ON A0 = A{k}" for k in range(1, count))
    return f"SELECT A0, B{count - 1} FROM T0{joins}"


def main():
    plan_counts = program("plan_counts")
    print("form   tables  budget  members  firings  complete  s       us/firing  MiB")
    with tempfile.TemporaryDirectory() as folder:
        path = os.path.join(folder, "model.json")
        with open(path, "w") as out:
            out.write(model())
        for budget in sizes([2000, 20000]):
            for name, form in (("chain", chain), ("star", star)):
                for count in range(2, TABLES + 1):
                    seconds, memory, answer = timed([plan_counts, path, form(count), "--budget", str(budget)])
                    words = answer.decode().split()
                    if len(words) != 6:
                        sys.exit(f"{name} of {count} tables: {answer!r}")
                    members, firings, complete = int(words[1]), int(words[3]), words[5]
                    each = 1e6 * seconds / max(firings, 1)
                    print(f"{name:<6} {count:<7} {budget:<7} {members:<8} {firings:<8} {complete:<9} {seconds:<7.3f} {each:<10.1f} {memory:.1f}")


if __name__ == "__main__":
    main()
