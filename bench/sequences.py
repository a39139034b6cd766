"""Writes pairs of machines in sequence: sequences.py FOLDER COUNT LENGTH. Each pair has LENGTH of the pairs of examples/from_c one
behind another, drawn by a stated rule from those that `check` decides by themselves; a pair whose machines would have more than 128
variables is drawn anew. The program is the one in FSMD."""
import os
import pathlib
import re
import subprocess
import sys

WORDS = {"fsmd", "input", "output", "local", "array", "reset", "state", "goto", "when"}
EXAMPLES = pathlib.Path(__file__).resolve().parent.parent / "examples" / "from_c"


def parts(text):
    """The declarations of a machine, its reset state, and its states."""
    text = re.sub(r"#[^\n]*", "", text)
    declared = re.findall(r"\b(input|output|local)\s+(array\s+)?([^;]*);", text)
    reset = re.search(r"\breset\s+(\w+)\s*;", text)
    variables = [(role, array, name.strip()) for role, array, names in declared for name in names.split(",")]
    return variables, reset[1], text[reset.end():]


def renamed(text, number):
    """A text whose names end in a number."""
    return re.sub(r"[A-Za-z_]\w*", lambda word: word[0] if word[0] in WORDS else f"{word[0][:26]}_{number}", text)


def sequence(texts):
    """Machines one behind another: the return of each begins the next one. None where there are too many variables."""
    machines = [parts(text) for text in texts]
    resets = [renamed(reset, number) for number, (_, reset, _) in enumerate(machines)]
    lines, states = ["fsmd 1;"], []
    for number, (variables, _, body) in enumerate(machines):
        lines += [f"{role} {array}{renamed(name, number)};" for role, array, name in variables]
        behind = resets[(number + 1) % len(machines)]
        states.append(re.sub(rf"\bgoto\s+{resets[number]}\b", f"goto {behind}", renamed(body, number)))
    if len(lines) > 129:
        return None
    return "\n".join([*lines, f"reset {resets[0]};", *states]) + "\n"


def decided(program):
    """The pairs of the examples that are equivalent by themselves, as texts."""
    for behaviour in sorted(EXAMPLES.glob("*/behaviour.fsmd")):
        for other in sorted(behaviour.parent.glob("*.fsmd")):
            if other != behaviour and subprocess.run([program, "check", behaviour, other], stdout=subprocess.DEVNULL).returncode == 0:
                yield behaviour.read_text(), other.read_text()


def main():
    folder, count, length = pathlib.Path(sys.argv[1]), int(sys.argv[2]), int(sys.argv[3])
    folder.mkdir(parents=True, exist_ok=True)
    pool, made, turn = list(decided(os.environ["FSMD"])), 0, 0
    while made < count:
        turn += 1
        drawn = [pool[(turn * turn + 31 * turn * place + 7 * place * place) % 9973 % len(pool)] for place in range(length)]
        left, right = (sequence([pair[side] for pair in drawn]) for side in (0, 1))
        if left and right:
            made += 1
            (folder / f"{length}.{made}.left.fsmd").write_text(left)
            (folder / f"{length}.{made}.right.fsmd").write_text(right)
        elif turn > 100_000:
            sys.exit(f"no {count} sequences of {length} machines have at most 128 variables")


main()
