#!/usr/bin/env python3
"""Looks for a wrong `equivalent`: random behaviours against schedules that move work past tests, right ones and broken ones.

    bench/random_schedules.py PROGRAM PAIRS [RUNS [SEED]]

Each pair is given to `check --cert`. Where it answers `equivalent`, its certificate must pass `verify`, and RUNS random inputs
(50 where it is left out) are run on both machines here, by an interpreter of this file: both must end with the same outputs, or
neither must end. A counterexample is run here too. The last line counts pairs by answer, runs, and certificates with several
nodes at the same points (those of format 4); the status is 0 where all is well."""
import collections
import copy
import os
import random
import re
import subprocess
import sys
import tempfile

SCALARS = ["a", "b", "n", "s", "t", "u", "i", "j", "y"]
INPUTS = ["a", "b", "n"]
LOCALS = ["s", "t", "u", "i", "j"]
DECLARED = "input a, b, n; input array m; output y; output array k;"
MOST_STEPS = 3000
Line = collections.namedtuple("Line", "guard target assigns")


def quotient(left, right):
    """The quotient toward zero; 0 where the divisor is 0."""
    return 0 if right == 0 else abs(left) // abs(right) * (1 if (left < 0) == (right < 0) else -1)


def remainder(left, right):
    """The remainder with the sign of the dividend; 0 where the divisor is 0."""
    return 0 if right == 0 else left - right * quotient(left, right)


# An expression is a text, a tuple (operator, left, right), or ("read", array, index). A guard is a comparison of two
# expressions, (operator, left, right), or ("&&", guard, guard).
def shown(it):
    """The expression as a machine text has it."""
    if isinstance(it, str):
        return it
    if it[0] == "read":
        return f"{it[1]}[{shown(it[2])}]"
    return f"({shown(it[1])} {it[0]} {shown(it[2])})"


def shown_guard(it):
    """The guard as a machine text has it."""
    show = shown_guard if it[0] == "&&" else shown
    return f"{show(it[1])} {it[0]} {show(it[2])}"


def computed(it):
    """The expression or guard as Python over the scalars v and the arrays r."""
    if isinstance(it, str):
        return it if re.fullmatch(r"-?\d+", it) else f"v['{it}']"
    if it[0] == "read":
        return f"r['{it[1]}'].get({computed(it[2])}, 0)"
    names = {"/": "quotient", "%": "remainder"}
    if it[0] in names:
        return f"{names[it[0]]}({computed(it[1])}, {computed(it[2])})"
    return f"({computed(it[1])} {'and' if it[0] == '&&' else it[0]} {computed(it[2])})"


def reads(it):
    """The scalars and arrays that an expression or a guard reads."""
    if isinstance(it, str):
        return {it} - {""} if not re.fullmatch(r"-?\d+", it) else set()
    if it[0] == "read":
        return {it[1]} | reads(it[2])
    return reads(it[1]) | reads(it[2])


def replaced(it, name, by):
    """The expression with another in place of a scalar."""
    if isinstance(it, str):
        return by if it == name else it
    if it[0] == "read":
        return ("read", it[1], replaced(it[2], name, by))
    return (it[0], replaced(it[1], name, by), replaced(it[2], name, by))


class Machine:
    """States by name, each a list of lines; an assignment is (scalar, expression) or (array, index, expression)."""

    def __init__(self):
        self.states, self.locals = {}, list(LOCALS)

    def text(self, prefix):
        names = {state: f"{prefix}{number}" for number, state in enumerate(self.states)}
        out = [f"fsmd 1; {DECLARED} local {', '.join(self.locals)}; reset {names['reset']};"]
        for state, lines in self.states.items():
            out.append(f"state {names[state]}:")
            for line in lines:
                guard = f"when {shown_guard(line.guard)} " if line.guard else ""
                assigns = ", ".join(f"{it[0]} = {shown(it[1])}" if len(it) == 2 else f"{it[0]}[{shown(it[1])}] = {shown(it[2])}" for it in line.assigns)
                out.append(f"  {guard}goto {names[line.target]}{': ' if assigns else ''}{assigns};")
        return "\n".join(out) + "\n"

    def compiled(self):
        """A Python function from one state's name to the next, over the scalars and arrays."""
        code = ["def step(q, v, r):"]
        for state, lines in self.states.items():
            code.append(f" if q == {state!r}:")
            for line in lines:
                code.append(f"  if {computed(line.guard) if line.guard else 'True'}:")
                values = ", ".join(computed(it[-1]) for it in line.assigns)
                places = ", ".join(f"v['{it[0]}']" if len(it) == 2 else f"r['{it[0]}'][{computed(it[1])}]" for it in line.assigns)
                if line.assigns:
                    # the right sides and indices are valued before anything changes
                    indices = [f"i{n} = {computed(it[1])}" for n, it in enumerate(line.assigns) if len(it) == 3]
                    places = ", ".join(f"v['{it[0]}']" if len(it) == 2 else f"r['{it[0]}'][i{n}]" for n, it in enumerate(line.assigns))
                    code += [f"   {it}" for it in indices] + [f"   {places} = {values}"]
                code.append(f"   return {line.target!r}")
        made = {"quotient": quotient, "remainder": remainder}
        exec("\n".join(code), made)
        return made["step"]


def ended(step, scalars, array, most):
    """The outputs of a run from these inputs, or None where it does not end within so many steps."""
    v = collections.defaultdict(int, scalars)
    r = {"m": dict(array), "k": {}}
    state = "reset"
    for _ in range(most):
        state = step(state, v, r)
        if state == "reset":
            return v["y"], {index: value for index, value in r["k"].items() if value}
        if any(abs(value) >= 2**126 for value in v.values()):
            return "wide"
    return None


def both_ended(steps, scalars, array):
    """How the runs of two machines end. Where one ends and the other does not, the other gets many times the steps."""
    ends = [ended(it, scalars, array, MOST_STEPS) for it in steps]
    if ends.count(None) == 1:
        ends = [ended(it, scalars, array, 50 * MOST_STEPS) for it in steps]
    return ends


class Maker:
    """Makes behaviours from a random source."""

    def __init__(self, source):
        self.random, self.machine, self.count = source, Machine(), 0

    def fresh(self):
        self.count += 1
        return f"w{self.count}"

    def number(self, depth=2):
        r = self.random.random()
        if depth == 0 or r < 0.4:
            return self.random.choice(SCALARS[:-1] if r < 0.3 else ["0", "1", "2", "3", "4"])
        if r < 0.5:
            return ("read", self.random.choice("mk"), self.number(1))
        operator = self.random.choices("+-*/%", [6, 4, 2, 1, 1])[0]
        return (operator, self.number(depth - 1), self.number(depth - 1))

    def assignment(self):
        if self.random.random() < 0.15:
            return ("k", self.number(1), self.number(1))
        return (self.random.choice(["s", "t", "u", "y"]), self.number())

    def guard(self):
        return (self.random.choice(["<", "<=", ">", ">=", "==", "!="]), self.number(1), self.number(1))

    def block(self, entry, leave, depth):
        """States from `entry` that end with a transition to `leave`."""
        here = entry
        for _ in range(self.random.randint(1, 3)):
            after = self.fresh()
            kind = self.random.random()
            if depth and kind < 0.25:
                yes, no = self.fresh(), self.fresh()
                self.machine.states[here] = [Line(self.guard(), yes, []), Line(None, no, [])]
                self.block(yes, after, depth - 1)
                self.block(no, after, depth - 1)
            elif depth and kind < 0.5:
                counter = ["i", "j"][2 - depth]
                test, body, step = self.fresh(), self.fresh(), self.fresh()
                bound = self.random.choice(["n", "3", "a"])
                self.machine.states[here] = [Line(None, test, [(counter, "0")])]
                self.machine.states[test] = [Line(("<", counter, bound), body, []), Line(None, after, [])]
                self.block(body, step, depth - 1)
                self.machine.states[step] = [Line(None, test, [(counter, ("+", counter, "1"))])]
            else:
                self.machine.states[here] = [Line(None, after, [self.assignment()])]
            here = after
        self.machine.states[here] = [Line(None, leave, [self.assignment()])]


def scheduled(machine, source):
    """The machine after some steps that a scheduler makes; each keeps the behaviour."""
    made = copy.deepcopy(machine)
    for _ in range(source.randint(1, 8)):
        source.choice([merged, pushed, pushed, split])(made, source)
    return made


def straight(machine, state):
    """The one line of a state with one line, which leads on."""
    lines = machine.states.get(state, [])
    return lines[0] if len(lines) == 1 and lines[0].target != "reset" else None


def entries(machine, state):
    return sum(line.target == state for lines in machine.states.values() for line in lines)


def after_assigns(it, assigns):
    """An expression behind assignments to scalars that happen at once, valued before them."""
    marked = it
    for name, _ in assigns:
        marked = replaced(marked, name, f"@{name}")
    for name, value in assigns:
        marked = replaced(marked, f"@{name}", value)
    return marked


def merged(machine, source):
    """Puts a state's assignments into the state before it, where arrays are not in the way."""
    found = [it for it in machine.states if straight(machine, it) and straight(machine, straight(machine, it).target)]
    if not found:
        return
    state = source.choice(found)
    first = straight(machine, state)
    second = straight(machine, first.target)
    if first.target == state or entries(machine, first.target) != 1 or any(len(it) == 3 for it in first.assigns + second.assigns):
        return
    moved = [(name, after_assigns(value, first.assigns)) for name, value in second.assigns]
    kept = [it for it in first.assigns if it[0] not in [name for name, _ in moved]]
    machine.states[state] = [Line(None, second.target, kept + moved)]
    del machine.states[first.target]


def pushed(machine, source):
    """Moves a state's assignments past the test that follows, into both of its branches."""
    found = [it for it in machine.states if straight(machine, it) and len(machine.states[straight(machine, it).target]) > 1]
    if not found:
        return
    state = source.choice(found)
    first = straight(machine, state)
    test = first.target
    if entries(machine, test) != 1 or any(len(it) == 3 for it in first.assigns) or any(line.assigns for line in machine.states[test]):
        return
    lines = []
    for line in machine.states[test]:
        guard = line.guard and (line.guard[0], after_assigns(line.guard[1], first.assigns), after_assigns(line.guard[2], first.assigns))
        lines.append(Line(guard, line.target, list(first.assigns)))
    machine.states[state] = lines
    del machine.states[test]


def split(machine, source):
    """Gives a transition's last assignment a state of its own, where it reads nothing that the others write."""
    found = [(it, number) for it, lines in machine.states.items() for number, line in enumerate(lines) if len(line.assigns) > 1]
    if not found:
        return
    state, number = source.choice(found)
    line = machine.states[state][number]
    last, others = line.assigns[-1], line.assigns[:-1]
    if any(reads(part) & {it[0] for it in others} for part in last[1:]) or last[0] in [it[0] for it in others]:
        return
    added = f"x{len(machine.states)}{state}"
    while added in machine.states:
        added += "x"
    machine.states[state][number] = Line(line.guard, added, others)
    machine.states[added] = [Line(None, line.target, [last])]


def broken(machine, source):
    """The machine with one change that may change its behaviour."""
    made = copy.deepcopy(machine)
    places = [(it, number) for it, lines in made.states.items() for number, line in enumerate(lines) if line.assigns or line.guard]
    state, number = source.choice(places)
    line = made.states[state][number]
    if line.assigns and source.random() < 0.7:
        assigns = list(line.assigns)
        at = source.randrange(len(assigns))
        change = source.random()
        if change < 0.3:
            del assigns[at]
        else:
            assigns[at] = (*assigns[at][:-1], ("+", assigns[at][-1], "1") if change < 0.7 else source.choice(["0", "s", "t", "i"]))
        made.states[state][number] = Line(line.guard, line.target, assigns)
    elif line.guard:
        made.states[state][number] = Line(compared_otherwise(line.guard, source), line.target, line.assigns)
    return made


def compared_otherwise(guard, source):
    """The guard with another operator in its first comparison."""
    if guard[0] == "&&":
        return ("&&", compared_otherwise(guard[1], source), guard[2])
    return (source.choice(["<", "<=", ">", ">=", "==", "!="]), *guard[1:])


def random_inputs(source):
    wide = source.choice([2, 4, 8, 1000])
    scalars = {name: source.randint(-wide, wide) for name in INPUTS}
    scalars["n"] = source.randint(-2, 9)
    return scalars, {index: source.randint(-wide, wide) for index in range(-3, 12)}


def read_counterexample(reply):
    scalars, array = {}, {}
    for line in reply.splitlines()[1:]:
        name, _, value = line.partition(" = ")
        if name in INPUTS:
            scalars[name] = int(value)
        elif name == "m":
            array = {int(i): int(x) for i, x in re.findall(r"(-?\d+): (-?\d+)", value)}
    return scalars, array


def random_pair(source):
    """A behaviour and a schedule of it, and whether the schedule is a right one or a broken one."""
    maker = Maker(source)
    maker.block("reset", "reset", 2)
    is_broken = source.random() < 0.4
    schedule = scheduled(broken(maker.machine, source) if is_broken else maker.machine, source)
    return maker.machine, schedule, "broken" if is_broken else "right"


def faults(program, paths, machines, source, runs, seen, kind):
    """What is wrong with the answer to a pair of machines, which stand in the files of these paths; `seen` counts the answers."""
    *pair, cert = paths
    if os.path.exists(cert):
        os.remove(cert)
    ran = subprocess.run([program, "check", *pair, "--cert", cert, "--steps", "1000"], capture_output=True, text=True)
    answer = ran.stdout.split(":")[0].split("\n")[0]
    seen[f"{kind} {answer}"] += 1
    steps = [it.compiled() for it in machines]
    if answer == "equivalent":
        with open(cert) as file:
            seen["several"] += file.read(12) == '{"format":4,'
        judged = subprocess.run([program, "verify", *paths], capture_output=True, text=True)
        if judged.stdout != "yes\n":
            yield f"verify says {judged.stdout}"
        for _ in range(runs):
            scalars, array = random_inputs(source)
            ends = both_ended(steps, scalars, array)
            seen["runs"] += 2
            if "wide" not in ends and ends[0] != ends[1]:
                yield f"equivalent, but {scalars} {array} end with {ends}"
                break
    elif answer == "counterexample":
        ends = both_ended(steps, *read_counterexample(ran.stdout))
        seen["runs"] += 2
        if None in ends or ends[0] == ends[1]:
            yield f"a counterexample that ends with {ends}: {ran.stdout}"
        elif kind.startswith("right"):
            yield f"a right one that differs: {ran.stdout}"
    elif answer != "undecided":
        yield f"status {ran.returncode}: {ran.stdout}{ran.stderr}"


def main(make_pair=random_pair):
    program, pairs = sys.argv[1], int(sys.argv[2])
    runs = int(sys.argv[3]) if len(sys.argv) > 3 else 50
    seed = int(sys.argv[4]) if len(sys.argv) > 4 else 1
    source, seen, bad = random.Random(seed), collections.Counter(), 0
    folder = tempfile.mkdtemp()
    paths = [os.path.join(folder, it) for it in ("a.fsmd", "b.fsmd", "c.json")]
    for number in range(pairs):
        *machines, kind = make_pair(source)
        for path, machine, prefix in zip(paths, machines, "sq"):
            with open(path, "w") as out:
                out.write(machine.text(prefix))
        for why in faults(program, paths, machines, source, runs, seen, kind):
            bad += 1
            print(f"pair {number} of seed {seed}: {why}\n{machines[0].text('s')}{machines[1].text('q')}")
    print(f"{pairs} pairs, {seen.pop('runs', 0)} runs, {seen.pop('several', 0)} certificates with several nodes at the same points: "
          + ", ".join(f"{it} {seen[it]}" for it in sorted(seen)) + f"; {bad} wrong")
    return 1 if bad else 0


if __name__ == "__main__":
    sys.exit(main())
