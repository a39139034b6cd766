#!/usr/bin/env python3
"""Runs each kernel, compiled by clang 14, beside its machines on random inputs, and compares what they put out:

    against_c.py [INPUTS A KERNEL]

It tests from_ir.py; `fsmd` takes no part in that but for running the machines. Without optimisation, so that C is taken as it stands."""
import ctypes
import json
import os
import pathlib
import random
import re
import subprocess
import sys
import tempfile

HERE = pathlib.Path(__file__).resolve().parent
PROGRAM = os.environ.get("FSMD", str(HERE / "../../bin/fsmd"))
CELLS = 40  # entries of each array: more than any kernel reaches with numbers of at most 5


def parameters(source, kernel):
    """The result's type, and each parameter as its name and whether it is a scalar, an array that is read, or one that is written."""
    result, text = re.search(rf"(\w+) {kernel}\((.*?)\)", source).groups()
    parts = text.split(",")
    return result, [(re.search(r"\w+$", part)[0], "scalar" if "*" not in part else "read" if "const" in part else "written") for part in parts]


def chosen(kind, name):
    if kind == "scalar":
        return random.randint(1 if name == "m" else 0, 5)  # m divides
    return [random.randint(0, 5) for _ in range(CELLS)]


def listing(cells):
    return "{" + ", ".join(f"{place}: {entry}" for place, entry in enumerate(cells) if entry) + "}"


def in_c(function, result, values):
    """What the compiled function puts out, by name, as fsmd prints it."""
    function.restype = ctypes.c_long
    given = {name: ctypes.c_long(value) if kind == "scalar" else (ctypes.c_long * CELLS)(*value) for name, kind, value in values}
    returned = function(*given.values())
    out = {name: listing(given[name]) for name, kind, _ in values if kind == "written"}
    return out if result == "void" else {**out, "result": str(returned)}


def by_machine(machine, inputs):
    run = subprocess.run([PROGRAM, "run", machine, inputs], stdout=subprocess.PIPE, text=True)
    return dict(line.split(" = ", 1) for line in run.stdout.splitlines()[1:]) if run.returncode == 0 else run.stdout


def functions(work):
    """Each kernel as compiled, right and broken: its result's type, its parameters, the function and its machines."""
    for source in sorted(HERE.glob("*/*.c")):
        result, names = parameters(source.read_text(), source.stem)
        for flags in ([], ["-DBROKEN"]):
            shared = f"{work}/{source.stem}{len(flags)}.so"
            subprocess.run(["clang-14", "-O0", "-shared", "-fPIC", *flags, source, "-o", shared], check=True)
            machines = [machine for machine in source.parent.glob("*.fsmd") if (machine.stem == "broken") == bool(flags)]
            yield result, names, getattr(ctypes.CDLL(shared), source.stem), machines


def main():
    runs = bad = 0
    with tempfile.TemporaryDirectory() as work:
        inputs = pathlib.Path(work, "inputs.json")
        trials = int(sys.argv[1]) if len(sys.argv) > 1 else 10
        for result, names, function, machines in (each for each in functions(work) for _ in range(trials)):
            values = [(name, kind, chosen(kind, name)) for name, kind in names]
            given = {f"{name}_in" if kind == "written" else name: value if kind == "scalar" else dict(enumerate(value))
                     for name, kind, value in values}
            if any(kind == "written" for _, kind in names):
                given["cells"] = CELLS
            inputs.write_text(json.dumps(given))
            wanted = in_c(function, result, values)
            differ = [machine for machine in machines if by_machine(machine, inputs) != wanted]
            runs, bad = runs + len(machines), bad + len(differ)
            for machine in differ:
                print(f"{machine} differs from C on {json.dumps(given)}")
    print(f"{runs} runs, of which {bad} differ")
    sys.exit(bad != 0)


if __name__ == "__main__":
    main()
