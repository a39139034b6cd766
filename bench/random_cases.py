#!/usr/bin/env python3
"""Looks for a wrong `equivalent` among random pairs for which several facts are needed at a pair of points.

    bench/random_cases.py PROGRAM PAIRS [RUNS [SEED]]

The behaviours are random loops and tests. A schedule keeps the results of tests in flags, asks several tests in one state, does
two turns of a loop behind one test, writes loops out, or keeps a value in one of two registers; behind that it moves work past
tests, as those of random_schedules.py, and 4 of 10 are then damaged. What is checked of each answer, and what the last line
counts, is the same as there; the status is 0 where all is well."""
import copy
import re
import sys

from random_schedules import Line, Maker, after_assigns, both_ended, broken, computed, main, quotient, random_inputs, reads, remainder, replaced, scheduled

INPUT_ONLY = {"a", "b", "n"}
# What a move makes of a state at most, and what a state may have.
MOST_BRANCHES, MOST_BRANCHES_OF_STATE, MOST_PARTS = 20, 64, 60


class CaseMaker(Maker):
    """Makes small behaviours, in which half of the tests ask inputs alone."""

    def number(self, depth=1):
        return super().number(min(depth, 1))

    def guard(self):
        if self.random.random() < 0.5:
            return (self.random.choice(["<", ">", ">=", "=="]), self.random.choice("abn"), self.random.choice(["0", "1", "2", "b"]))
        return super().guard()


def parts(it):
    """How many names, numbers and operators an expression or a guard has."""
    return 1 if isinstance(it, str) else sum(map(parts, it))


def folded(it):
    """An expression or a guard whose operators on numbers are carried out; a guard may come to True or False."""
    if isinstance(it, str):
        return it
    if it[0] == "read":
        return ("read", it[1], folded(it[2]))
    left, right = folded(it[1]), folded(it[2])
    if it[0] == "&&":
        found = [part for part in (left, right) if part is not True]
        return False if False in found else (it[0], *found) if len(found) == 2 else found[0] if found else True
    if all(isinstance(part, str) and re.fullmatch(r"-?\d+", part) for part in (left, right)):
        value = eval(computed((it[0], left, right)), {"quotient": quotient, "remainder": remainder})
        return value if isinstance(value, bool) else str(value) if value >= 0 else (it[0], left, right)
    return (it[0], left, right)


def comparisons(guard):
    """How many comparisons a guard has; None has none."""
    return 0 if guard is None else 1 if guard[0] != "&&" else comparisons(guard[1]) + comparisons(guard[2])


def branches(lines):
    """How many branches a state of these lines has: where a comparison of a guard does not hold, the next line is asked."""
    count = 1
    for line in reversed(lines):
        count = 1 + comparisons(line.guard) * count
    return count


def both(first, second):
    """The guard that asks both; None is a guard that always holds."""
    return ("&&", first, second) if first and second else first or second


def tidied(lines):
    """The lines without those that are never taken; the last one has no guard. Nothing where they are too many or too long."""
    kept = []
    for line in lines:
        guard = folded(line.guard) if line.guard else True
        assigns = [(*it[:-1], folded(it[-1])) for it in line.assigns]
        if guard is not False:
            kept.append(Line(None if guard is True else guard, line.target, assigns))
        if guard is True:
            break
    sizes = [parts(line.guard or "") for line in kept] + [parts(it[-1]) for line in kept for it in line.assigns]
    return kept if branches(kept) <= MOST_BRANCHES and max(sizes, default=0) <= MOST_PARTS else None


def touched(line, arrays):
    """Which arrays a line reads or writes."""
    names = reads(line.guard) if line.guard else set()
    for it in line.assigns:
        names |= {it[0]}.union(*map(reads, it[1:]))
    return names & arrays


def drawn_in(machine, state, number):
    """Puts the lines of the next state into a line of a state, so that one step does what two did. Says whether it did."""
    line = machine.states[state][number]
    if line.target == "reset":
        return False
    written = {it[0] for it in line.assigns if len(it) == 3}
    if any(touched(it, written) for it in machine.states[line.target]):
        return False
    first = [it for it in line.assigns if len(it) == 2]
    lines = []
    for it in machine.states[line.target]:
        later = [(*[after_assigns(part, first) if at else part for at, part in enumerate(assign)],) for assign in it.assigns]
        names = {assign[0] for assign in later if len(assign) == 2}
        kept = [assign for assign in line.assigns if len(assign) == 3 or assign[0] not in names]
        lines.append(Line(both(line.guard, it.guard and after_assigns(it.guard, first)), it.target, kept + later))
    made = tidied(machine.states[state][:number] + lines + machine.states[state][number + 1:])
    if made is None:
        return False
    machine.states[state] = made
    return True


def reached(machine):
    """Takes out the states to which nothing leads."""
    found, todo = {"reset"}, ["reset"]
    while todo:
        for line in machine.states[todo.pop()]:
            if line.target not in found:
                found.add(line.target)
                todo.append(line.target)
    machine.states = {state: lines for state, lines in machine.states.items() if state in found}


def tests(machine):
    return [state for state, lines in machine.states.items() if len(lines) > 1]


def with_flags(machine, source):
    """A test of inputs is asked once, as a run begins, and its result kept in a flag; or it is asked a step before it counts."""
    guards = [(state, line.guard) for state in tests(machine) for line in machine.states[state] if line.guard]
    early = [guard for _, guard in guards if reads(guard) <= INPUT_ONLY]
    flag = f"f{len(machine.locals)}"
    is_set = ("==", flag, "1")
    if early and source.random() < 0.7:
        guard = source.choice(early)
        for state, lines in machine.states.items():
            machine.states[state] = [Line(is_set if line.guard == guard else line.guard, line.target, line.assigns) for line in lines]
        begin = f"begin{flag}"
        machine.states[begin] = machine.states["reset"]
        machine.states["reset"] = [Line(guard, begin, [(flag, "1")]), Line(None, begin, [(flag, "0")])]
    else:
        found = [state for state in tests(machine) if len(machine.states[state]) == 2]
        if not found:
            return False
        state = source.choice(found)
        behind = f"behind{flag}"
        test, other = machine.states[state]
        machine.states[behind] = [Line(is_set, test.target, test.assigns), other]
        machine.states[state] = [Line(test.guard, behind, [(flag, "1")]), Line(None, behind, [(flag, "0")])]
        before = [it for it, lines in machine.states.items() if len(lines) == 1 and lines[0].target == state]
        entries = sum(line.target == state for lines in machine.states.values() for line in lines)
        # The test goes before the work of the state in front of it, which it does not read.
        if len(before) == 1 and entries == 1 and "reset" not in (state, before[0]):
            work = machine.states[before[0]][0].assigns
            if not reads(test.guard) & {it[0] for it in work}:
                machine.states[before[0]] = machine.states.pop(state)
                machine.states[f"work{flag}"] = [Line(None, behind, work)]
                machine.states[before[0]] = [Line(line.guard, f"work{flag}", line.assigns) for line in machine.states[before[0]]]
    machine.locals.append(flag)
    return True


def with_merged_tests(machine, source):
    """Tests are asked in the state of a test before them."""
    done = False
    for _ in range(source.randint(1, 4)):
        found = [(state, number) for state in tests(machine) for number, line in enumerate(machine.states[state])
                 if line.target not in ("reset", state)]
        if found:
            done |= drawn_in(machine, *source.choice(found))
    return done


def loops_of_one_state(machine, source):
    """The states that lead to themselves, after work was drawn into the tests of loops."""
    for state in tests(machine):
        for _ in range(6):
            line = machine.states[state][0]
            if line.target == state or len(machine.states.get(line.target, [])) > 2 or not drawn_in(machine, state, 0):
                break
    return [(state, number) for state in tests(machine) for number, line in enumerate(machine.states[state]) if line.target == state]


def with_unrolled_loops(machine, source):
    """A loop does two or three turns behind one test."""
    found = loops_of_one_state(machine, source)
    if not found:
        return False
    state, number = source.choice(found)
    before = copy.deepcopy(machine.states[state])
    if not drawn_in(machine, state, number):
        return False
    # The lines of the turn that is drawn in lead to the loop as it was before, one turn a time, or to the loop as it is now.
    if source.random() < 0.3:
        machine.states["single"] = [Line(it.guard, "single" if it.target == state else it.target, it.assigns) for it in before]
        made = machine.states[state]
        last = max(at for at, it in enumerate(made) if it.target == state)
        made[last] = Line(made[last].guard, "single", made[last].assigns)
    return True


def with_written_out_loops(machine, source):
    """The first turns of a loop are written out in front of it: all of them, where their number is known."""
    loops = {state for state, _ in loops_of_one_state(machine, source)}
    found = [(state, number) for state, lines in machine.states.items() for number, line in enumerate(lines)
             if line.target in loops and state != line.target]
    if not found:
        return False
    state, number = source.choice(found)
    loop, done = machine.states[state][number].target, False
    for _ in range(source.randint(2, 5)):
        numbers = [at for at, line in enumerate(machine.states[state]) if line.target == loop]
        if not numbers or not drawn_in(machine, state, numbers[0]):
            break
        done = True
    return done


def with_two_registers(machine, source):
    """A local is kept in one of two registers, by a test of inputs, which is asked wherever the local is met."""
    guard = (source.choice(["<", ">", ">=", "=="]), source.choice("abn"), source.choice(["0", "1", "2"]))
    name = source.choice("stu")
    other = f"r{len(machine.locals)}"
    for state, lines in list(machine.states.items()):
        if not any(touched(line, {name}) for line in lines):
            continue
        there = [Line(both(guard, line.guard and renamed(line.guard, name, other)), line.target,
                      [(*[renamed(part, name, other) for part in it],) for it in line.assigns]) for line in lines]
        machine.states[state] = there + lines
        if branches(machine.states[state]) > MOST_BRANCHES:
            return False
    machine.locals.append(other)
    return True


def renamed(it, name, other):
    return other if it == name else replaced(it, name, other)


MOVES = {"flags": with_flags, "merged tests": with_merged_tests, "unrolled": with_unrolled_loops,
         "written out": with_written_out_loops, "two registers": with_two_registers}


def damaged(behaviour, schedule, source):
    """The schedule with one change: any one, or one of several that shows on random inputs, if one does."""
    for _ in range(source.choice([1, 6])):
        made = broken(schedule, source)
        reached(made)
        steps = behaviour.compiled(), made.compiled()
        ends = [both_ended(steps, *random_inputs(source)) for _ in range(10)]
        if any("wide" not in it and it[0] != it[1] for it in ends):
            break
    return made


def random_pair(source):
    """A behaviour and a schedule of it, and what the schedule did."""
    while True:
        maker = CaseMaker(source)
        maker.block("reset", "reset", source.choice([1, 1, 2]))
        schedule = copy.deepcopy(maker.machine)
        name = source.choice(list(MOVES))
        if not MOVES[name](schedule, source):
            continue
        reached(schedule)
        if source.random() < 0.5:
            schedule = scheduled(schedule, source)
        is_broken = source.random() < 0.4
        if any(branches(lines) > MOST_BRANCHES_OF_STATE for lines in schedule.states.values()):
            continue
        if is_broken:
            schedule = damaged(maker.machine, schedule, source)
        return maker.machine, schedule, f"{'broken' if is_broken else 'right'} {name}"


if __name__ == "__main__":
    sys.exit(main(random_pair))
