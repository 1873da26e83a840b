"""What the benches share: where the proved programs lie, the time and the memory of a command, and files of a given size."""
import os
import subprocess
import sys
import tempfile
import time

ROOT = os.path.dirname(os.path.dirname(os.path.abspath(__file__)))
RUNS = 3


def program(name):
    """The path of a proved program, which `rt ci` or `rt run` leaves."""
    path = os.path.join(ROOT, "crates", name, "out", name)
    if not os.path.exists(path):
        sys.exit(f"crates/{name}/out/{name} is missing: run `rt ci` first")
    return path


def sizes(default):
    """The sizes that the command line asks for."""
    return [int(word) for word in sys.argv[1:]] or default


def timed(command):
    """The least time, the greatest memory and the output of a command."""
    least, most, text = None, 0, b""
    for _ in range(RUNS):
        with tempfile.TemporaryFile() as out:
            begin = time.perf_counter()
            process = subprocess.Popen(command, stdout=out)
            _, status, usage = os.wait4(process.pid, 0)
            spent = time.perf_counter() - begin
            if status != 0:
                sys.exit(f"{command[0]} ended with status {os.waitstatus_to_exitcode(status)}")
            out.seek(0)
            text = out.read()
        least = spent if least is None else min(least, spent)
        most = max(most, usage.ru_maxrss / 1024)
    return least, most, text


def numbers():
    """Whole numbers of 31 bits, in a fixed sequence."""
    number = 1
    while True:
        number = (1103515245 * number + 12345) % 2**31
        yield number


def fill(path, start, pieces, limit):
    """Writes the start and as many of the pieces as fit into so many bytes; answers how many."""
    with open(path, "w") as out:
        out.write(start)
        size, count = len(start), 0
        for piece in pieces:
            size += len(piece)
            if size > limit:
                return count
            out.write(piece)
            count += 1
