"""C programs over the proved library and its header, which `make build` leaves, as the benches want them."""
import os
import pathlib
import subprocess
import sys

ROOT = pathlib.Path(__file__).resolve().parent.parent
sys.path.insert(0, str(ROOT / "tests"))

LIBRARY, TOOLS = ROOT / "build" / "librsmp_site.a", ROOT / "build" / "tools"
FLAGS = ["-std=gnu11", "-Wall", "-Wextra", "-Werror", "-O2", "-I", ROOT / "build"]


def program(name, room, compiler=TOOLS / "cc", more=()):
    """bench/NAME.c compiled into the directory `room`."""
    made = pathlib.Path(room) / name
    subprocess.run([compiler, *FLAGS, "-o", made, ROOT / "bench" / f"{name}.c", LIBRARY, *more], check=True)
    return made


def output(command, given):
    return subprocess.run(command, input=given, stdout=subprocess.PIPE, check=True, text=True).stdout
