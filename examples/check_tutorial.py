#!/usr/bin/env python3
"""Runs each command of docs/TUTORIAL.md in examples/shop and compares what it prints; with --write, writes it into the page.

calq is the proved program, crates/calq/out/calq, which `rt run` in crates/calq makes."""
import pathlib
import shlex
import subprocess
import sys

ROOT = pathlib.Path(__file__).resolve().parent.parent
PAGE = ROOT / "docs" / "TUTORIAL.md"
CALQ = ROOT / "crates" / "calq" / "out" / "calq"
SHOP = ROOT / "examples" / "shop"


def told(command):
    """What the command prints, in lines."""
    words = shlex.split(command)
    if words[0] != "calq":
        sys.exit(f"no command of calq: {command}")
    run = subprocess.run([CALQ, *words[1:]], cwd=SHOP, capture_output=True, text=True, check=False)
    return run.stdout.splitlines()


def main():
    """Compares the page, or writes it."""
    lines = PAGE.read_text().splitlines()
    made, fence, commands = [], False, 0
    at = 0
    while at < len(lines):
        line = lines[at]
        at += 1
        made.append(line)
        if line.startswith("```"):
            fence = not fence
        elif fence and line.startswith("$ "):
            commands += 1
            while not lines[at].startswith(("$ ", "```")):
                at += 1
            made += told(line[2:])
    text = "\n".join(made) + "\n"
    if "--write" in sys.argv[1:]:
        PAGE.write_text(text)
    elif text != PAGE.read_text():
        for old, new in zip(lines + [""] * len(made), made):
            if old != new:
                sys.exit(f"the page has: {old}\ncalq prints: {new}")
    print(f"{commands} commands")


main()
