#!/usr/bin/env python3
"""Translates one function of a textual LLVM IR file (LLVM 14) to a machine of `fsmd`.

    from_ir.py FILE.ll [--function NAME] [--instructions] [--assume-no-wrap] > FILE.fsmd

The machine takes one transition a basic block; with --instructions one an instruction. It is not part of what is proved:
what `fsmd` says is of the machine, and whether the machine is the function rests on this file.

How a function becomes a machine:
- A word of N bits is the integer from -2^(N-1) to 2^(N-1) - 1 that it is with sign; the integers of a machine have no
  bounds. An operation is taken where both are the same: add, sub, mul and shl with nsw, or where the result fits by bounds
  that are known of what they take; trunc, udiv and urem where such bounds tell that no number changes. All else may wrap
  and is refused. --assume-no-wrap takes it as if it did not, and zext and lshr of 32 bits and more as not negative; the
  machine says in comments, and the command on standard error, what was assumed.
- sext, zext, sdiv, srem, shifts to the right and masks of low bits are exact.
- Each pointer is an array of its own, which `restrict` must say where one of two is written. One that is written is an
  output; its entries before the call are the input NAME_in, of which the first `cells` are copied before the function
  begins. Entries from `cells` on begin as 0. Arrays of arrays stand row by row.
- A local array begins with 0. A table of constants is one that is written before the function begins.
- The value that is returned is the output `result`, from 0 to 2^N - 1 where it is zeroext. A value that LLVM leaves
  undefined is what its variable held.
- A division by 0 gives 0, as `fsmd` says; in C it is no behaviour at all.

What is not translated is refused with the line, and status 1: calls, variables of the file, pointers that are computed or
compared, floating point, vectors, structures, `or` and `xor` of numbers, shifts by a variable.
"""
import argparse
import itertools
import math
import os
import re
import sys

# Terms are tuples: ("num", n), ("var", x), ("read", array, index), ("neg", t), (op, l, r) with op of + - * / %.
# Guards are ("yes",), ("no",), ("not", g), ("and", g, h), ("or", g, h), ("rel", op, l, r).
RESERVED = {"fsmd", "input", "output", "local", "array", "reset", "state", "when", "goto", "start", "done", "emit", "port"}
SIGNED = {"eq": "==", "ne": "!=", "slt": "<", "sle": "<=", "sgt": ">", "sge": ">="}
UNSIGNED = {"ult": "<", "ule": "<=", "ugt": ">", "uge": ">="}
BINARY = {"add": "+", "sub": "-", "mul": "*", "sdiv": "/", "srem": "%", "udiv": "/", "urem": "%"}
MOST_OPERATORS = 128  # of one guard or one assignment
MOST_ENTRIES = 1024  # of one table, or of one array that is set at once
NAME = r"(?:[-\w.$]+|\"[^\"]+\")"
VALUE = rf"(?:%{NAME}|-?\d+|true|false|undef|poison)"
TYPE = r"i\d+"
SHAPE = rf"(?:\[\d+ x )*{TYPE}\]*"
ELEMENT = rf"getelementptr(?: inbounds)? \({SHAPE}, {SHAPE}\* @{NAME}(?:, {TYPE} -?\d+)+\)"
POINTER = rf"(?:%{NAME}|@{NAME}|{ELEMENT})"
NOT_TAKEN = rf"\b(?:float|double|half|fp128|x86_fp80)\b|<\d+ x [^>]*>|%(?:struct|union)\.{NAME}|\{{ [^}}]* \}}|{TYPE}\*\*"


class Refused(Exception):
    """What is not translated."""


class Unread(Exception):
    """What is not translated, whatever the line."""


# ---------------------------------------------------------------- terms

def num(n):
    return ("num", n) if n >= 0 else ("neg", ("num", -n))


def constant(term):
    if term[0] == "num":
        return term[1]
    return -term[1][1] if term[0] == "neg" and term[1][0] == "num" else None


def binary(op, left, right):
    """A term, with the sums of constants and of 0 made, and `+ -n` as `- n`."""
    l, r = constant(left), constant(right)
    if op in "+-" and r is not None:
        r = r if op == "+" else -r
        if l is not None or r == 0:
            return num(l + r) if l is not None else left
        return ("+", left, num(r)) if r > 0 else ("-", left, num(-r))
    if op == "+" and l == 0:
        return right
    if op == "*" and 1 in (l, r):
        return right if l == 1 else left
    return (op, left, right)


def relation(op, left, right):
    return ("rel", op, left, right)


def unsigned(op, left, right):
    """A comparison of words without sign: a negative number is above all others."""
    if op in (">", ">="):
        return unsigned({">": "<", ">=": "<="}[op], right, left)
    inside = ("and", relation(">=", left, num(0)), relation(op, left, right))
    if constant(right) is not None and constant(right) >= 0:
        return inside
    above = ("or", relation(">=", left, num(0)), relation(op, left, right))
    return ("or", inside, ("and", relation("<", right, num(0)), above))


def negation(guard):
    return {"yes": ("no",), "no": ("yes",)}.get(guard[0]) or (guard[1] if guard[0] == "not" else ("not", guard))


def joined(op, left, right):
    """Left and right, or left or right, where either may be known."""
    known, absorbs = ("yes", "no") if op == "and" else ("no", "yes")
    if left[0] == absorbs or right[0] == absorbs:
        return (absorbs,)
    if left[0] == known:
        return right
    return left if right[0] == known else (op, left, right)


def parts(tree):
    return [part for part in tree[1:] if isinstance(part, tuple)]


def replaced(tree, values):
    """The tree with terms in place of the variables that have one."""
    if tree[0] == "var":
        return values.get(tree[1], tree)
    changed = [replaced(part, values) if isinstance(part, tuple) else part for part in tree[1:]]
    return binary(tree[0], *changed) if tree[0] in ("+", "-", "*") else (tree[0], *changed)


def variables(tree):
    own = {tree[1]} if tree[0] == "var" else set()
    return own.union(*(variables(part) for part in parts(tree)))


def arrays(tree):
    own = {tree[1]} if tree[0] == "read" else set()
    return own.union(*(arrays(part) for part in parts(tree)))


def text(tree, least=0):
    """The text of a term or a guard at a place that asks for operators that bind at least so much."""
    kind = tree[0]
    if kind in ("num", "var"):
        return str(tree[1])
    if kind == "read":
        return f"{tree[1]}[{text(tree[2])}]"
    if kind in ("yes", "no"):
        return "0 == 0" if kind == "yes" else "0 != 0"
    if kind == "rel":
        return f"{text(tree[2])} {tree[1]} {text(tree[3])}"
    if kind == "not":
        return "!" + (text(tree[1]) if tree[1][0] == "not" else "{" + text(tree[1]) + "}")
    if kind == "neg":
        return "-" + text(tree[1], 9)
    level, sign, brackets = {"or": (1, "||", "{}"), "and": (2, "&&", "{}"), "+": (3, "+", "()"), "-": (3, "-", "()")}.get(
        kind, (4, kind, "()"))
    shown = f"{text(tree[1], level)} {sign} {text(tree[2], level + 1)}"
    return brackets[0] + shown + brackets[1] if level < least else shown


def operators(tree):
    """At least as many as the operators and brackets that `fsmd` counts."""
    return len(re.findall(r"[-+*/%!(\[{<>]|&&|\|\||[=!]=", text(tree)))


# ---------------------------------------------------------------- bounds of words

def whole(width):
    """The numbers that a word of so many bits may be, with sign."""
    return -(1 << width - 1), (1 << width - 1) - 1


def within(bounds, width):
    return whole(width)[0] <= bounds[0] and bounds[1] <= whole(width)[1]


def cut(bounds, width):
    """The bounds, as far as a word has them."""
    return max(bounds[0], whole(width)[0]), min(bounds[1], whole(width)[1])


def result_bounds(op, left, right):
    """Bounds of a sum, a difference, a product, a quotient or a remainder of integers with these bounds."""
    if op in "+-":
        low, high = right if op == "+" else (-right[1], -right[0])
        return left[0] + low, left[1] + high
    if op == "*":
        ends = [l * r for l in left for r in right]
        return min(ends), max(ends)
    most = max(map(abs, left))
    if op == "%":
        most = min(most, max(map(abs, right)) - (0 not in right))
    return (0 if left[0] >= 0 and (op == "%" or right[0] >= 0) else -most), most


# ---------------------------------------------------------------- the function, read

def fresh(wanted, taken):
    """A name near the one wanted that is not taken; now it is."""
    base = re.sub(r"\W", "_", wanted)[:24]
    base = "v" + base if base[0].isdigit() else base
    name = next(name for name in itertools.chain([base], (f"{base}_{k}" for k in itertools.count(2))) if name not in taken)
    taken.add(name)
    return name


class Block:
    """A basic block: its lines of the IR, phis as (variable, is a truth value, {label: operand}), steps, and either edges as
    (guard, label), of which the last has the guard `yes`, or what is returned, as a list of at most one term.

    A step is ("set", variable, term), ("store", array, index, term) or ("choose", guard, [(variable, term, term), ..])."""

    def __init__(self, label):
        self.label, self.lines, self.phis, self.steps, self.edges, self.returned = label, [], [], [], [], None

    def targets(self):
        return re.findall(rf"label %({NAME})", self.lines[-1][1])


class Function:
    """What is read of a function."""

    def __init__(self):
        self.scalars, self.arrays, self.blocks = [], [], []
        self.written = {}  # each array that is written, with the input of its entries before the call
        self.unshared = set()  # arrays that are `restrict`
        self.locals = {}  # each array that is no parameter: how many entries, of how many bits, and what it begins with
        self.tables, self.extended, self.bounded = {}, False, {}
        self.assumes, self.assumed, self.place = False, {}, 0
        self.values, self.guards, self.addresses, self.wholes, self.names = {}, {}, {}, {}, {}
        self.taken = RESERVED | {"result", "cells", "copy_k"}
        self.returns = False

    def fresh(self, wanted):
        return fresh(wanted, self.taken)

    def variable(self, value):
        """The variable of a value of the IR, which may be used above the line that makes it."""
        if value not in self.names:
            self.names[value] = self.fresh(value.strip('%"'))
        return self.names[value]

    def term(self, value):
        if value[0] != "%":
            if value in ("undef", "poison"):
                raise Refused("an undefined value in an operation")
            return num(int(value))
        if value in self.addresses or value in self.guards:
            raise Refused("a pointer or a truth value where a number belongs")
        return self.values.get(value) or ("var", self.variable(value))

    def guard(self, value):
        if value in ("true", "false"):
            return ("yes",) if value == "true" else ("no",)
        if value not in self.guards:
            raise Refused("a truth value that is no comparison")
        return self.guards[value]

    def address(self, value):
        """The array and the index of a pointer."""
        if value.startswith("getelementptr"):
            return element(self, value.replace("(", "", 1)[:-1])
        if value not in self.addresses and value in self.tables:
            size, width, entries = self.tables[value]
            self.addresses[value] = (self.local(value.strip('@"'), size, width, entries), num(0))
        if value in self.addresses:
            return self.addresses[value]
        raise Refused("a variable of the file" if value[0] == "@" else "a pointer that is no array plus an index")

    def local(self, wanted, size, width, entries=()):
        """A new array that is no parameter."""
        if size > MOST_ENTRIES and any(entries):
            raise Refused(f"a table of more than {MOST_ENTRIES} entries")
        name = self.fresh(wanted)
        self.locals[name] = (size, width, entries)
        return name

    def bounds(self, value, width):
        """Between which numbers a value of so many bits lies."""
        if re.fullmatch(r"-?\d+", value):
            return int(value), int(value)
        return self.bounded.get(value, whole(width))

    def assume(self, what):
        """Takes as given what may not be so, where that is allowed."""
        if not self.assumes:
            raise Refused(f"it is not known that {what} (--assume-no-wrap assumes it)")
        self.assumed.setdefault(what, []).append(self.place)


def matched(pattern, line):
    return re.fullmatch(pattern, line)


def read_parameters(function, line):
    for place, parameter in enumerate(filter(None, re.split(r",\s*(?![^(]*\))", line))):
        words = parameter.split()
        value = words[-1] if words[-1].startswith("%") else f"%{place}"
        if re.fullmatch(TYPE, words[0]):
            function.scalars.append(function.variable(value))
        elif found := matched(rf"({SHAPE})\*( .*)?", parameter):
            name = function.variable(value)
            function.arrays.append(name)
            function.addresses[value] = (name, num(0))
            if "noalias" in words:
                function.unshared.add(name)
        else:
            raise Refused(f"a parameter of a type that is not taken: {parameter}")


def floor_divided(term, divisor):
    """What an arithmetic shift makes of a number of either sign."""
    return binary("/", binary("-", term, low_bits(term, divisor)), num(divisor))


def low_bits(term, divisor):
    return binary("%", binary("+", binary("%", term, num(divisor)), num(divisor)), num(divisor))


def arithmetic(function, op, flags, width, left, right):
    """The term of an operation, and its bounds."""
    l, r = function.bounds(left, width), function.bounds(right, width)
    if op in ("udiv", "urem") and min(l[0], r[0]) < 0:
        function.assume(f"what {op} takes is not negative")
        l, r = (max(l[0], 0), max(l[1], 0)), (max(r[0], 0), max(r[1], 0))
    bounds = result_bounds(BINARY[op], l, r)
    if op in ("add", "sub", "mul") and "nsw" not in flags and not within(bounds, width):
        function.assume(f"{op} without nsw does not wrap")
    return binary(BINARY[op], function.term(left), function.term(right)), cut(bounds, width)


def mask(function, width, left, right):
    """The low bits of a number."""
    if right[0] == "%":
        left, right = right, left
    by = constant(function.term(right))
    if by is None or by < 0 or by & (by + 1):
        raise Refused("a mask that is no power of 2 less 1")
    low, high = function.bounds(left, width)
    term = function.term(left)
    return binary("%", term, num(by + 1)) if low >= 0 else low_bits(term, by + 1), (0, min(by, high) if low >= 0 else by)


def shifted(function, op, flags, width, left, right):
    """A shift by a constant, and its bounds."""
    by, term, (low, high) = constant(function.term(right)), function.term(left), function.bounds(left, width)
    if by is None or not 0 <= by < width:
        raise Refused(f"{op} by what is no constant below {width}")
    factor = 1 << by
    if op == "shl":
        if "nsw" not in flags and not within((low * factor, high * factor), width):
            function.assume("shl without nsw does not wrap")
        return binary("*", term, num(factor)), cut((low * factor, high * factor), width)
    if op == "lshr" and by:
        term, (low, high) = without_sign(function, op, width, left)
    exact = low >= 0 or "exact" in flags
    return binary("/", term, num(factor)) if exact else floor_divided(term, factor), (low // factor, high // factor)


def without_sign(function, op, width, value):
    """What a word is without sign, and its bounds. Where it is assumed that nothing wraps, a wide one is not negative."""
    term, (low, high) = function.term(value), function.bounds(value, width)
    if low >= 0:
        return term, (low, high)
    if width < 32 or not function.assumes:
        return low_bits(term, 1 << width), (0, (1 << width) - 1)
    function.assume(f"what {op} takes is not negative")
    return term, (0, max(high, 0))


def converted(function, op, before, value, after):
    """A number as a word of another width, and its bounds."""
    term, bounds = function.term(value), function.bounds(value, before)
    if op == "zext":
        term, bounds = without_sign(function, op, before, value)
    if within(bounds, after):
        return term, bounds
    function.assume(f"{op} keeps its number")
    return term, whole(after)


def read_operation(function, rest):
    """The term and the bounds of an operation that makes a number of numbers, or None where it is another instruction."""
    if found := matched(rf"({'|'.join(BINARY)})((?: nuw| nsw| exact)*) i(\d+) ({VALUE}), ({VALUE})", rest):
        return arithmetic(function, found[1], found[2], int(found[3]), found[4], found[5])
    if found := matched(rf"and (?!i1 )i(\d+) ({VALUE}), ({VALUE})", rest):
        return mask(function, int(found[1]), found[2], found[3])
    if found := matched(rf"(shl|lshr|ashr)((?: nuw| nsw| exact)*) i(\d+) ({VALUE}), ({VALUE})", rest):
        return shifted(function, found[1], found[2], int(found[3]), found[4], found[5])
    if found := matched(rf"xor (?!i1 )i(\d+) ({VALUE}), -1", rest):
        low, high = function.bounds(found[2], int(found[1]))
        return binary("-", ("neg", function.term(found[2])), num(1)), (-high - 1, -low - 1)
    return None


def read_choice(function, rest):
    """A guard with two terms, and bounds of both, or None where it is another instruction."""
    if found := matched(rf"select i1 ({VALUE}), (?!i1 )i(\d+) ({VALUE}), {TYPE} ({VALUE})", rest):
        ends = [function.bounds(found[place], int(found[2])) for place in (3, 4)]
        bounds = min(low for low, _ in ends), max(high for _, high in ends)
        return function.guard(found[1]), function.term(found[3]), function.term(found[4]), bounds
    if found := matched(rf"(zext|sext) i1 ({VALUE}) to {TYPE}", rest):
        one = 1 if found[1] == "zext" else -1
        return function.guard(found[2]), num(one), num(0), (min(one, 0), max(one, 0))
    call = rf"(?:tail )?call {TYPE} @llvm"
    if found := matched(rf"{call}\.s(max|min)\.i(\d+)\({TYPE} ({VALUE}), {TYPE} ({VALUE})\)(?: #\d+)?", rest):
        left, right = function.term(found[3]), function.term(found[4])
        return relation(">" if found[1] == "max" else "<", left, right), left, right, whole(int(found[2]))
    if found := matched(rf"{call}\.abs\.i(\d+)\({TYPE} ({VALUE}), i1 (true|false)\)(?: #\d+)?", rest):
        width, term = int(found[1]), function.term(found[2])
        if found[3] == "false" and function.bounds(found[2], width)[0] == whole(width)[0]:
            function.assume("what abs takes is not the least number")
        return relation("<", term, num(0)), ("neg", term), term, (0, whole(width)[1])
    return None


def read_number(function, block, value, rest):
    """An instruction that makes a number: its step, or False where it is another."""
    if made := read_operation(function, rest):
        block.steps.append(("set", function.variable(value), made[0]))
    elif found := matched(rf"load {TYPE}, {TYPE}\* ({POINTER})(?:, .*)?", rest):
        block.steps.append(("set", function.variable(value), ("read", *function.address(found[1]))))
        return True
    elif made := read_choice(function, rest):
        guard, left, right, _ = made
        block.steps.append(("choose", guard, [(function.variable(value), left, right)]))
    else:
        return False
    function.bounded[value] = made[-1]
    return True


def read_truth(function, _, value, rest):
    """An instruction that makes a truth value, or a number or a pointer that needs no step."""
    if found := matched(rf"icmp (\w+) {TYPE} ({VALUE}), ({VALUE})", rest):
        op, left, right = found[1], function.term(found[2]), function.term(found[3])
        function.guards[value] = relation(SIGNED[op], left, right) if op in SIGNED else unsigned(UNSIGNED[op], left, right)
    elif found := matched(rf"(and|or) i1 ({VALUE}), ({VALUE})", rest):
        function.guards[value] = joined(found[1], function.guard(found[2]), function.guard(found[3]))
    elif found := matched(rf"xor i1 ({VALUE}), true", rest):
        function.guards[value] = negation(function.guard(found[1]))
    elif found := matched(rf"select i1 ({VALUE}), i1 ({VALUE}), i1 ({VALUE})", rest):
        test, yes, no = (function.guard(found[place]) for place in (1, 2, 3))
        no_way = no if yes[0] == "yes" else joined("and", negation(test), no)
        function.guards[value] = joined("or", joined("and", test, yes), no_way)
    elif found := matched(rf"trunc {TYPE} ({VALUE}) to i1", rest):
        function.guards[value] = relation("!=", binary("%", function.term(found[1]), num(2)), num(0))
    elif found := matched(rf"freeze i1 ({VALUE})", rest):
        function.guards[value] = function.guard(found[1])
    elif found := matched(rf"([sz]ext|trunc) (?!i1 )i(\d+) ({VALUE}) to (?!i1$)i(\d+)", rest):
        function.values[value], function.bounded[value] = converted(function, found[1], int(found[2]), found[3], int(found[4]))
    elif found := matched(rf"freeze i(\d+) ({VALUE})", rest):
        function.values[value], function.bounded[value] = function.term(found[2]), function.bounds(found[2], int(found[1]))
    elif rest.startswith("getelementptr "):
        function.addresses[value] = element(function, rest)
    else:
        return False
    return True


def shape(words):
    """The lengths of an array type, the outermost first, and the bits of an entry."""
    found = matched(r"((?:\[\d+ x )*)i(\d+)(\]*)", words)
    if not found or found[1].count("[") != len(found[3]):
        raise Refused(f"the type {words} is not taken")
    return [int(length) for length in re.findall(r"\d+", found[1])], int(found[2])


def element(function, rest):
    """The array and the index of an address that is another one plus indices."""
    found = matched(rf"getelementptr( inbounds)? ({SHAPE}), ({SHAPE})\* ({POINTER})((?:, {TYPE} {VALUE})+)", rest)
    if not found:
        raise Refused("an address that is not taken")
    if not found[1]:
        function.assume("an address without inbounds does not wrap")
    lengths, _ = shape(found[2])
    array, place = function.address(found[4])
    for at, index in enumerate(re.findall(rf", {TYPE} ({VALUE})", found[5])):
        if at > len(lengths):
            raise Refused("more indices than the array has")
        size, term = math.prod(lengths[at:]), function.term(index)
        known = constant(term)
        place = binary("+", place, binary("*", term, num(size)) if known is None else num(known * size))
    return array, place


def read_array(function, block, value, rest):
    """A local array or a pointer to the whole of one, or False where it is another instruction."""
    if found := matched(rf"alloca ({SHAPE})(?:, align \d+)?", rest):
        if block is not function.blocks[0]:
            raise Refused("a local array behind the first block")
        lengths, width = shape(found[1])
        function.addresses[value] = (function.local(value.strip('%"'), math.prod(lengths), width), num(0))
    elif found := matched(rf"bitcast ({SHAPE})\* ({POINTER}) to i8\*", rest):
        function.wholes[value] = whole_array(function, found[2])
    else:
        return False
    return True


def whole_array(function, value):
    """The local array or the table at whose beginning a pointer is."""
    if found := matched(rf"bitcast \({SHAPE}\* (@{NAME}) to i8\*\)", value):
        value = found[1]
    if value in function.wholes:
        return function.wholes[value]
    if value in function.tables:
        return value
    array, index = function.address(value)
    if array not in function.locals or constant(index) != 0:
        raise Refused("a pointer to what is no whole local array")
    return array


def read_setting(function, block, line):
    """A local array that is set to 0 or to a table, all of it at once; or False where it is another instruction."""
    words = r"(?:noundef |nonnull |align \d+ |dereferenceable\(\d+\) )*"
    begin = rf"(?:tail )?call void @llvm\.mem(?:cpy|set)[\w.]*\(i8\* {words}({POINTER}), "
    source = rf"i8\* {words}({POINTER}|bitcast \(.*?\))"
    found = matched(rf"{begin}(?:{source}|i8 0), i64 (\d+), i1 false\)(?: #\d+)?", line)
    if not found:
        return False
    array = whole_array(function, found[1])
    size, width, entries = function.locals.get(array) or (0, 8, ())
    if found[2]:
        table = whole_array(function, found[2])
        if table not in function.tables or function.tables[table][:2] != (size, width):
            raise Refused("a copy that is not of a whole table to a whole local array")
        entries = function.tables[table][2]
    if int(found[3]) * 8 != size * width or size > MOST_ENTRIES:
        raise Refused(f"a part of an array, or more than {MOST_ENTRIES} entries, at once")
    block.steps += [("store", array, num(place), num(entries[place] if found[2] else 0)) for place in range(size)]
    return True


def entries_of(given, lengths, width):
    """The entries of a table as they are given."""
    if string := matched(r'c"(.*)"', given):
        codes = [int(byte[1:], 16) if len(byte) > 1 else ord(byte) for byte in re.findall(r"\\[0-9A-F]{2}|.", string[1])]
        return [code - 256 if code > 127 else code for code in codes]
    if given == "zeroinitializer":
        return [0] * math.prod(lengths)
    given = re.sub(rf"({SHAPE}) zeroinitializer", lambda found: ", ".join([f"i{width} 0"] * math.prod(shape(found[1])[0])), given)
    return [int(entry) for entry in re.findall(rf"{TYPE} (-?\d+)(?=[],]|$)", given if lengths else f"i{width} {given}")]


def read_tables(lines):
    """The tables of constants of a file, each with its length, the bits of an entry and the entries."""
    tables, words = {}, "private |internal |dso_local |local_unnamed_addr |unnamed_addr "
    for line in lines:
        if found := matched(rf"(@{NAME}) = (?:{words})*constant ({SHAPE}) (.*?)(?:, align \d+)?", line):
            lengths, width = shape(found[2])
            entries = entries_of(found[3], lengths, width)
            if len(entries) == math.prod(lengths):
                tables[found[1]] = (len(entries), width, entries)
    return tables


def read_end(function, block, line):
    """The last instruction of a block, or False where it is another."""
    if found := matched(rf"br label %({NAME})(?:, !.*)?", line):
        block.edges = [(("yes",), found[1])]
    elif found := matched(rf"br i1 ({VALUE}), label %({NAME}), label %({NAME})(?:, !.*)?", line):
        block.edges = [(function.guard(found[1]), found[2]), (("yes",), found[3])]
    elif found := matched(rf"switch {TYPE} ({VALUE}), label %({NAME}) \[(.*)\]", line):
        cases = re.findall(rf"{TYPE} (-?\d+), label %({NAME})", found[3])
        block.edges = [(relation("==", function.term(found[1]), num(int(case))), label) for case, label in cases]
        block.edges.append((("yes",), found[2]))
    elif line == "ret void":
        block.returned = []
    elif found := matched(rf"ret i(\d+) ({VALUE})", line):
        function.returns = True
        width, term = int(found[1]), function.term(found[2])
        below = function.extended and function.bounds(found[2], width)[0] < 0
        block.returned = [low_bits(term, 1 << width) if below else term]
    else:
        return False
    return True


def read_phi(function, block, value, kind, rest):
    variable = function.variable(value)
    operands = {label: operand for operand, label in re.findall(rf"\[ ({VALUE}), %({NAME}) \]", rest)}
    block.phis.append((variable, kind == "i1", operands))
    if kind == "i1":
        function.guards[value] = relation("!=", ("var", variable), num(0))


def read_line(function, block, line):
    made = matched(rf"(%{NAME}) = (.*)", line)
    if made and (found := matched(rf"phi ({TYPE}) (.*)", made[2])):
        read_phi(function, block, made[1], found[1], found[2])
    elif made and any(read(function, block, made[1], made[2]) for read in (read_truth, read_number, read_array)):
        return
    elif found := matched(rf"store {TYPE} ({VALUE}), {TYPE}\* ({POINTER})(?:, .*)?", line):
        array, index = function.address(found[2])
        if array not in function.written and array not in function.locals:
            function.written[array] = function.fresh(f"{array}_in")
        block.steps.append(("store", array, index, function.term(found[1])))
    elif not read_setting(function, block, line) and not read_end(function, block, line):
        kind = re.search(NOT_TAKEN, line)
        raise Refused(f"the type {kind[0]} is not taken" if kind else "an instruction that is not translated")


def heading(lines, function_name):
    """The number of the line where the one function begins, or the one that is named."""
    heads = {found[1].strip('"'): place for place, line in enumerate(lines)
             if (found := re.match(rf"define .*?@({NAME})\(", line))}
    there = ", ".join(heads) or "none"
    if function_name is None and len(heads) != 1:
        raise Unread(f"{len(heads)} functions: name one by --function, of {there}" if heads else "no function")
    if function_name is not None and function_name not in heads:
        raise Unread(f"no function {function_name}: there is {there}")
    return heads[function_name] if function_name is not None else next(iter(heads.values()))


def split(lines, first):
    """The parameters, whether the result is extended without sign, and the blocks of the function that begins at a line."""
    head = matched(rf"define (.*?)@{NAME}\((.*)\)[^()]*\{{", lines[first])
    if not head or "..." in head[2]:
        raise Refused("a function whose parameters are not taken")
    parameters, blocks, whole = head[2], [], ""
    for place in range(first + 1, lines.index("}", first)):
        line = re.sub(r"\s*;.*$", "", lines[place]).strip()
        if found := matched(rf"({NAME}):", line):
            blocks.append(Block(found[1]))
            continue
        whole = f"{whole} {line}".strip()
        if not whole or whole.count("[") > whole.count("]"):
            continue  # nothing, or a switch that goes on
        if not blocks:
            blocks.append(Block(str(parameters.count("%"))))
        if not re.search(r"@llvm\.(lifetime|assume|dbg)", whole):
            blocks[-1].lines.append((place + 1, re.sub(r", !\w+ !\d+", "", whole)))
        whole = ""
    return parameters, "zeroext" in head[1].split(), blocks


def in_order(blocks):
    """The blocks that are reached, each behind those through which every way leads to it."""
    named, seen, left = {block.label: block for block in blocks}, set(), []

    def visit(label):
        if label not in seen:
            seen.add(label)
            for target in reversed(named[label].targets()):
                visit(target)
            left.append(named[label])
    visit(blocks[0].label)
    return left[::-1]


def told_apart(function):
    """Refuses arrays of which one is written and that may overlap."""
    for one, other in itertools.combinations(function.arrays, 2):
        if {one, other} & set(function.written) and not {one, other} & function.unshared:
            raise Unread(f"{one} and {other} may overlap: declare one of them restrict")


def file_lines(path):
    try:
        with open(path, encoding="utf-8") as file:
            return file.read().splitlines()
    except OSError as error:
        raise Unread(f"cannot be read: {error.strerror}") from None
    except UnicodeDecodeError:
        raise Unread("is no text") from None


def read(path, function_name, assumes):
    function, number, line = Function(), 0, ""
    try:
        lines = file_lines(path)
        first = heading(lines, function_name)
        number, line = first + 1, lines[first]
        function.assumes, function.tables = assumes, read_tables(lines)
        parameters, function.extended, blocks = split(lines, first)
        read_parameters(function, parameters)
        function.blocks = in_order(blocks)
        for block in function.blocks:
            for number, line in block.lines:
                function.place = number
                read_line(function, block, line)
        told_apart(function)
    except Unread as refused:
        raise Refused(f"{path}: {refused}") from None
    except Refused as refused:
        raise Refused(f"{path}:{number}: {refused}: {line}") from None
    except (LookupError, ValueError, RecursionError):
        raise Refused(f"{path}:{number}: this is not read as IR of clang 14: {line}") from None
    return function


# ---------------------------------------------------------------- the machine

class Part:
    """What a state does: scalars that are set and arrays that are written, all over the values before."""

    def __init__(self, name, label):
        self.name, self.label, self.values, self.writes = name, label, {}, []

    def is_empty(self):
        return not self.values and not self.writes

    def written(self):
        return {array for array, _, _ in self.writes}

    def over(self, tree):
        return replaced(tree, self.values)


class Machine:
    """States with transitions, each a guard, a target, scalars with their terms, and writes."""

    def __init__(self, function, single):
        self.function, self.single = function, single
        self.states, self.state_names, self.labels = [], RESERVED | {"begin", "copy"}, {}
        for block in function.blocks:
            self.labels[block.label] = self.state_name(block.label.strip('"'))

    def state_name(self, wanted):
        return fresh(wanted, self.state_names)

    def put_state(self, part, ways):
        """A state that does a part, with more of the scalars on each way: a guard, a target and these."""
        self.states.append((part.name, [(guard, target, {**part.values, **more}, part.writes) for guard, target, more in ways]))

    def next_part(self, part, ways=None):
        """Ends a part, and begins the next."""
        behind = Part(self.state_name(part.label), part.label)
        self.put_state(part, [(guard, behind.name, more) for guard, more in ways or [(("yes",), {})]])
        return behind

    def put_step(self, part, step):
        chosen = [tree for _, *both in step[2] for tree in both] if step[0] == "choose" else []
        trees = [tree for tree in step[1:] if isinstance(tree, tuple)] + chosen
        reads = set().union(*(arrays(tree) for tree in trees))
        if not part.is_empty() and (self.single or reads & part.written() or any(is_long(part.over(tree)) for tree in trees)):
            part = self.next_part(part)
        if step[0] == "set":
            part.values[step[1]] = part.over(step[2])
        elif step[0] == "store":
            part.writes.append((step[1], part.over(step[2]), part.over(step[3])))
        else:
            yes, no = ({choice[0]: part.over(choice[side]) for choice in step[2]} for side in (1, 2))
            return self.next_part(part, [(part.over(step[1]), yes), (("yes",), no)])
        return part

    def copies(self, block, target, part):
        """What the phis of a target take on the way from a block: guards, each with scalars."""
        function, ways = self.function, [(("yes",), {})]
        for variable, is_truth, operands in next(other.phis for other in function.blocks if other.label == target):
            operand = operands[block.label]
            if operand in ("undef", "poison"):
                continue
            if is_truth:
                guard = part.over(function.guard(operand))
                ways = [(joined("and", old, new), {**more, variable: num(bit)})
                        for old, more in ways for new, bit in ((guard, 1), (("yes",), 0))]
            elif (term := part.over(function.term(operand))) != ("var", variable):
                ways = [(old, {**more, variable: term}) for old, more in ways]
        return ways

    def ways_out(self, block, part):
        if block.returned is not None:
            return [(("yes",), "begin", {"result": part.over(term) for term in block.returned})]
        return [(joined("and", part.over(guard), more_guard), self.labels[target], more)
                for guard, target in block.edges for more_guard, more in self.copies(block, target, part)]

    def put_block(self, block):
        part = Part(self.labels[block.label], self.labels[block.label])
        for step in block.steps if self.single else grouped(block.steps):
            part = self.put_step(part, step)
        ways = self.ways_out(block, part)
        trees = [tree for guard, _, more in ways for tree in (guard, *more.values())]
        if not part.is_empty() and (self.single or any(map(is_long, trees))):
            part = self.next_part(part)
            ways = self.ways_out(block, part)
        self.put_state(part, [way for way in ways if way[0][0] != "no"])

    def drop_unread(self):
        """Drops the assignments of locals that nothing reads."""
        while True:
            read_somewhere = {"result"}
            for _, ways in self.states:
                for guard, _, sets, writes in ways:
                    trees = [guard, *sets.values(), *(tree for write in writes for tree in write[1:])]
                    read_somewhere |= set().union(*(variables(tree) for tree in trees))
            kept = [(name, [(guard, target, {x: t for x, t in sets.items() if x in read_somewhere}, writes)
                            for guard, target, sets, writes in ways]) for name, ways in self.states]
            if kept == self.states:
                return
            self.states = kept


def grouped(steps):
    """The steps with neighbouring choices by one guard as one step, where none of them needs another."""
    kept = []
    for step in steps:
        if step[0] == "choose" and kept and kept[-1][0] == "choose" and kept[-1][1] == step[1]:
            needed = variables(step[2][0][1]) | variables(step[2][0][2])
            if not needed & {variable for variable, _, _ in kept[-1][2]}:
                kept[-1] = ("choose", step[1], kept[-1][2] + step[2])
                continue
        kept.append(step)
    return kept


def is_long(tree):
    return operators(tree) > MOST_OPERATORS


def machine_of(function, single):
    machine = Machine(function, single)
    for block in function.blocks:
        machine.put_block(block)
    machine.drop_unread()
    return machine


def declarations(function, machine):
    inputs = function.scalars + (["cells"] if function.written else [])
    input_arrays = [function.written.get(name, name) for name in function.arrays]
    assigned = dict.fromkeys(x for _, ways in machine.states for _, _, sets, _ in ways for x in sets)
    local_names = [x for x in assigned if x != "result"] + (["copy_k"] if function.written else [])
    for words, names in (("input", inputs), ("input array", input_arrays), ("output", ["result"] if function.returns else []),
                         ("output array", list(function.written)), ("local", local_names),
                         ("local array", list(function.locals))):
        if names:
            yield f"{words} {', '.join(names)};"


def transition(guard, target, sets, writes):
    actions = [f"{array}[{text(index)}] = {text(term)}" for array, index, term in writes]
    actions += [f"{x} = {text(term)}" for x, term in sets.items()]
    when = "" if guard[0] == "yes" else f"when {text(guard)} "
    return f"  {when}goto {target}{': ' if actions else ''}{', '.join(actions)};"


def beginning(function, machine, target):
    """The reset state, which writes the tables; with one instruction a state, it and others write an entry each."""
    writes = [(name, num(place), num(entry)) for name, (_, _, entries) in function.locals.items()
              for place, entry in enumerate(entries) if entry]
    steps = [[write] for write in writes] if machine.single and writes else [writes]
    names = ["begin", *(machine.state_name("table") for _ in steps[1:])]
    for at, step in enumerate(steps):
        is_last = at == len(steps) - 1
        yield f"state {names[at]}:"
        sets = {"copy_k": num(0)} if is_last and function.written else {}
        yield transition(("yes",), target if is_last else names[at + 1], sets, step)


def counted(places):
    return f"{len(places)} place{'s' if len(places) > 1 else ''}"


def machine_text(function, machine):
    yield "fsmd 1;"
    for what, places in function.assumed.items():
        yield f"# Assumed, not known, in {counted(places)}: {what}."
    yield from declarations(function, machine)
    first = machine.labels[function.blocks[0].label]
    yield "reset begin;"
    yield from beginning(function, machine, "copy" if function.written else first)
    if function.written:
        copied = ", ".join(f"{name}[copy_k] = {before}[copy_k]" for name, before in function.written.items())
        yield "state copy:"
        yield f"  when copy_k < cells goto copy: {copied}, copy_k = copy_k + 1;"
        yield f"  goto {first};"
    for name, ways in machine.states:
        yield f"state {name}:"
        for way in ways:
            yield transition(*way)
            if way[0][0] == "yes":
                break


def main(given=None):
    words = argparse.ArgumentParser(description="Translates one function of a textual LLVM IR file to a machine of fsmd.")
    words.add_argument("file")
    words.add_argument("--function", help="which, where the file has more than one")
    words.add_argument("--instructions", action="store_true", help="one instruction a state, not one transition a basic block")
    words.add_argument("--assume-no-wrap", action="store_true", help="take as exact what may wrap, and say so")
    asked = words.parse_args(given)
    try:
        function = read(asked.file, asked.function, asked.assume_no_wrap)
        made = "\n".join(machine_text(function, machine_of(function, asked.instructions)))
    except Refused as refused:
        sys.exit(f"from_ir.py: {refused}")
    except (LookupError, ValueError, RecursionError):
        sys.exit(f"from_ir.py: {asked.file}: this is not read as IR of clang 14")
    for what, places in function.assumed.items():
        print(f"from_ir.py: {asked.file}:{places[0]}: assumed, not known, in {counted(places)}: {what}", file=sys.stderr)
    try:
        print(made, flush=True)
    except OSError as error:
        os.dup2(os.open(os.devnull, os.O_WRONLY), sys.stdout.fileno())  # what is not written yet is not tried again
        sys.exit(f"from_ir.py: the machine cannot be written: {error.strerror}")


if __name__ == "__main__":
    main()
