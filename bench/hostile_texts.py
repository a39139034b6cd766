"""Makes texts near the limits, and far past them, in a folder: hostile_texts.py FOLDER. The end of a name tells what the text
is: a machine, a program, inputs, unit counts, a binding or a certificate. `NAME.PART.inputs` is for the machine `NAME.fsmd`."""
import sys

folder, limit = sys.argv[1], 1_048_576


def put(name, text):
    assert len(text) <= limit, (name, len(text))
    with open(f"{folder}/{name}", "w") as file:
        file.write(text)


def put_most(name, make, most=limit):
    """Writes make(n) for an n, `most` or less, whose text is within the limit and near it."""
    count = 1
    while count < most and len(make(count)) <= limit:
        count *= 2
    count = min(count, most)
    while (size := len(text := make(count))) > limit:
        count = count * limit * 199 // (size * 200)
    put(name, text)


def word(number):
    letters = "abcdefghijklmnopqrstuvwxyz"
    text = letters[number % 26]
    while number >= 26:
        number //= 26
        text += letters[number % 26]
    return text + "_"


def each(count, part, between=""):
    return between.join(part(k) for k in range(count))


def chain(count, line):
    """So many states, each with the lines that `line` gives for its number and the name of the next state."""
    return each(count, lambda q: f"state s{q}:{line(q, f's{(q + 1) % count}')}")


def either(count):
    """A guard with so many literals, and one more branches than those."""
    return "||".join(["a>0"] * count)


def scalar(number):
    return f"v{number % 124}"


scalars = [f"v{k}" for k in range(124)]
head = "fsmd 1;input a,b;output y;local x;local array m;reset s0;"
wide_head = f"fsmd 1;input a,b;output y;local {','.join(scalars)};local array m;reset s0;"
idle = head + "state s0:goto s0;"
step = head + "state s0:goto s0:"
program_head = "prog;input a,b;output y;local x;local array m;{"


def put_states(name, line, front=head, most=4096):
    """Writes the longest chain of such states behind a front."""
    put_most(name, lambda n: front + chain(n, line), most)


def plain():
    """What the others are read beside."""
    put("idle.fsmd", head + "state s0:goto s0:y=a;")
    put("none.inputs", "{}")
    put("none.binding", "{}")
    put("many.units", '{"add":128,"mul":128,"div":128,"mem":128}')


def same_bytes():
    """Texts of one token or of none, alone and behind a whole text."""
    pieces = {"spaces": " ", "lines": "\n", "comment": "#", "comments": "# x\n", "digits": "1", "zeros": "0", "letters": "a",
              "names": "a ", "signs": "<=", "brackets": "(", "braces": "{", "squares": "[", "quotes": '"'}
    for name, piece in pieces.items():
        put_most(f"{name}.fsmd", lambda n: piece * n)
        put_most(f"{name}_behind.fsmd", lambda n: idle + piece * n)
        put_most(f"{name}_behind.prog", lambda n: program_head + "}" + piece * n)
        for kind in ("inputs", "units", "binding", "cert"):
            put_most(f"{name}.{kind}", lambda n: piece * n)
            put_most(f"{name}_behind.{kind}", lambda n: "{}" + piece * n)


def nests():
    """Brackets, negations and indices, as deep as the rules allow and past all limits."""
    for name, opening, closing in (("round", "(", ")"), ("minus", "-", ""), ("index", "m[", "]")):
        nest = opening * 128 + "a" + closing * 128
        inner = opening * 127 + "a" + closing * 127
        put_most(f"{name}_past.fsmd", lambda n: step + "y=" + opening * n)
        put_most(f"{name}_past.prog", lambda n: program_head + "y=" + opening * n)
        put_states(f"{name}_each.fsmd", lambda q, to: f"goto {to}:y={nest};")
        put_most(f"{name}_each.prog", lambda n: program_head + f"y={nest};" * n + "}", 4095)
        put_most(f"{name}_line.fsmd", lambda n: step + f"m[0]={inner}," * n + "y=0;")
    for name, opening, closing in (("not", "!", ""), ("braces", "{", "}")):
        nest = opening * 127 + "a>0" + closing * 127
        put_most(f"guard_{name}_past.fsmd", lambda n: head + "state s0:when " + opening * n)
        put_states(f"guard_{name}_each.fsmd", lambda q, to: f"when {nest} goto {to};goto {to};")
        put_most(f"guard_{name}_each.prog", lambda n: program_head + f"while {nest}{{}}" * n + "}", 4095)
    put_most("blocks_past.prog", lambda n: program_head + "while a>0{" * n)
    put_most("blocks_deep.prog", lambda n: program_head + ("while a>0{" * 64 + "}" * 64) * n + "}", 63)
    put_most("blocks_deep_many.prog", lambda n: program_head + ("if a>0{" * 64 + "}" * 64) * n + "}")


def names():
    """Declarations of too many names, of one name again and again, and of as many as there may be."""
    tail = "reset s0;state s0:goto s0;"
    put_most("names_4000.fsmd", lambda n: "fsmd 1;" + each(n, lambda k: f"local {word(k)};") + tail, 4000)
    put_most("names_many.fsmd", lambda n: "fsmd 1;" + each(n, lambda k: f"local {word(k)};") + tail)
    put_most("names_many.prog", lambda n: "prog;" + each(n, lambda k: f"local {word(k)};") + "{}")
    put_most("names_line.fsmd", lambda n: "fsmd 1;local " + each(n, word, ",") + ";" + tail)
    put_most("names_last_twice.fsmd", lambda n: "fsmd 1;local " + each(n, word, ",") + ",a_;" + tail)
    put_most("name_again.fsmd", lambda n: "fsmd 1;local " + "a," * n + "a;" + tail)
    put_most("name_again_lines.fsmd", lambda n: "fsmd 1;\n" + "local a;\n" * n + tail)
    put_most("names_long.fsmd", lambda n: "fsmd 1;local " + each(n, lambda k: f"{k:_>32}", ",") + ";" + tail)
    put_most("names_unknown.fsmd", lambda n: head + "state s0:" + each(n, lambda k: f"goto s0:{word(k)}={word(k)};"))
    outputs = [f"y{k}" for k in range(128)]
    every = f"fsmd 1;output {','.join(outputs)};reset s0;"
    put("outputs.fsmd", every + "state s0:goto s0;")
    put_states("outputs_many.fsmd", lambda q, to: f"goto {to}:y{q % 128}={q};", every)
    every = f"fsmd 1;output array {','.join(outputs)};reset s0;"
    put_states("outputs_array.fsmd", lambda q, to: f"goto {to}:y{q % 128}[{q}]={q};", every)
    every = f"fsmd 2;input a;port {','.join(outputs[:127])};reset s0;"
    put_states("ports.fsmd", lambda q, to: f"goto {to}:" + each(16, lambda k: f"emit y{(16 * q + k) % 127} a", ",") + ";", every)
    put_most("emits.fsmd", lambda n: "fsmd 2;port p;reset s0;state s0:goto s0:" + "emit p 0," * n + "emit p 0;")


def states():
    """Machines of very many states, transitions or branches, and of many long paths."""
    for count in (4096, 4097, limit):
        put_states(f"states_{count}.fsmd", lambda q, to: f"goto {to};", most=count)
    put_most("states_bare.fsmd", lambda n: head + each(n, lambda q: f"state {word(q)}:"))
    put_most("state_again.fsmd", lambda n: head + "state s0:goto s0;" * n)
    put_states("states_alone.fsmd", lambda q, to: f"goto s{q};")
    put_states("states_long_loop.fsmd", lambda q, to: f"goto {to if to != 's0' and q else 's1'};")
    put_states("states_to_unknown.fsmd", lambda q, to: "goto t;")
    put_most("lines_many.fsmd", lambda n: head + "state s0:" + "goto s0;" * n)
    put_most("lines_guarded.fsmd", lambda n: head + "state s0:" + "when a>0 goto s0;" * n + "goto s0;")
    put_states("branches_2.fsmd", lambda q, to: f"when a>0 goto {to};goto s0;")
    put_states("branches_64.fsmd", lambda q, to: f"when {either(63)} goto {to};goto {to};")
    put_states("branches_64_lines.fsmd", lambda q, to: f"when a>0 goto {to};" * 63 + f"goto {to};")
    long = "+".join(["a"] * 64)
    put_states("branches_64_long.fsmd", lambda q, to: f"when {long}>{long} goto {to};" * 63 + f"goto {to};")
    # So many states with 64 branches, each of which begins so long a path.
    for forks, length in ((375, 1000), (375, 3721), (1000, 3096), (2048, 2048)):
        put(f"paths_{64 * forks}_{length}.fsmd", head
            + each(forks, lambda q: f"state s{q}:when {either(63)} goto t0;goto {f's{q + 1}' if q + 1 < forks else 't0'};")
            + each(length, lambda q: f"state t{q}:goto {f't{q + 1}' if q + 1 < length else 's0'};"))
    for name, inner, outer in (("and", "||", "&&"), ("or", "&&", "||")):
        guard = outer.join(["{a>0" + inner + "a>1}"] * 25)
        put_states(f"guard_{name}.fsmd", lambda q, to: f"when {guard} goto {to};goto {to};")


def transitions():
    """Very long transitions, alone and behind a wide guard, and expressions of 128 operators."""
    sum_of = "+".join(["a"] * 128)
    wide = head + f"state s0:when {either(63)} goto s0:"
    put_most("line_writes.fsmd", lambda n: step + "m[0]=0," * n + "y=0;")
    put_most("line_writes_apart.fsmd", lambda n: step + each(n, lambda k: f"m[{k}]=0", ",") + ";")
    put_most("line_writes_open.fsmd", lambda n: step + each(n, lambda k: f"m[a*{k}]=b", ",") + ";")
    put_most("line_again.fsmd", lambda n: step + "y=0," * n + "y=0;")
    put_most("line_again_last.fsmd", lambda n: step + "y=0," + "m[0]=0," * n + "y=0;")
    put_most("line_narrow.fsmd", lambda n: head + "state s0:when a>0 goto s0:" + "m[0]=0," * n + "y=0;goto s0;")
    put_most("line_wide.fsmd", lambda n: wide + "m[0]=0," * n + "y=0;goto s0;")
    put_most("line_wide_sums.fsmd", lambda n: wide + f"m[a]={sum_of}," * n + "y=0;goto s0;")
    every = ",".join(f"{name}=a" for name in scalars)
    put_states("assigns_all.fsmd", lambda q, to: f"goto {to}:{every};", wide_head)
    put_states("assigns_all_wide.fsmd", lambda q, to: f"when {either(63)} goto {to}:{every};goto {to};", wide_head)
    copy = lambda q: f"{scalar(q)}={scalar(7 * q)}"
    put_states("assigns_one_wide.fsmd", lambda q, to: f"when {either(63)} goto {to}:{copy(q)};goto {to};", wide_head)
    for name, operator in (("sum", "+"), ("product", "*"), ("quotient", "/"), ("remainder", "%")):
        for kind, operands in (("names", ["a"] * 129), ("numbers", ["1"] * 129), ("locals", scalars + scalars[:5])):
            part = operator.join(operands)
            put_states(f"operators_{name}_{kind}.fsmd", lambda q, to: f"goto {to}:{scalar(q)}={part};", wide_head)
    half = "+".join(["a"] * 64)
    put_states("operators_guard.fsmd", lambda q, to: f"when {half}>{half} goto {to};goto {to};")
    product = lambda q: f"{scalar(q)}={scalar(7 * q)}*{scalar(11 * q)}"
    put_states("straight.fsmd", lambda q, to: f"goto {to}:{product(q)}+{scalar(13 * q)};", wide_head)
    put_states("straight_array.fsmd", lambda q, to: f"goto {to}:m[{scalar(q)}]=m[{scalar(7 * q)}]+{q};", wide_head)
    put_states("straight_writes.fsmd", lambda q, to: f"goto {to}:m[{q}]={q};")
    fork = lambda q, to: f"when a>{q} goto {to};goto s0;"
    put_states("straight_forks.fsmd", lambda q, to: f"goto {to}:{product(q)};" if q % 3 else fork(q, to), wide_head)


def programs():
    put_most("statements_4095.prog", lambda n: program_head + "x=a;" * n + "}", 4095)
    put_most("statements_4096.prog", lambda n: program_head + "x=a;" * n + "}", 4096)
    put_most("statements_many.prog", lambda n: program_head + "x=a;" * n + "}")
    put_most("statements_operators.prog", lambda n: program_head + f"x={'+'.join(['a'] * 129)};" * n + "}", 4095)
    put_most("loops_one_after.prog", lambda n: program_head + "while a>0{}" * n + "}", 4095)
    put_most("loops_many.prog", lambda n: program_head + "while a>0{}" * n + "}")
    put_most("loops_wide.prog", lambda n: program_head + f"while {either(63)}{{x=a;}}" * n + "}", 2047)
    put_most("tests_wide.prog", lambda n: program_head + f"if {either(63)}{{x=a;}}else{{x=b;}}" * n + "}", 1365)
    put_most("tests_else.prog", lambda n: program_head + "if a>0{}else{" * n + "}" * n + "}", 64)
    put_most("number.prog", lambda n: program_head + "x=" + "0" * n + "1;}")


def files():
    """Inputs, unit counts, bindings and certificates: JSON."""
    for kind, key in (("inputs", "a"), ("units", "add"), ("binding", "x"), ("cert", "nodes")):
        put_most(f"keys_equal.{kind}", lambda n: "{" + ",".join([f'"{key}":1'] * n) + "}")
        put_most(f"keys_equal_text.{kind}", lambda n: "{" + ",".join([f'"{key}":"1"'] * n) + "}")
        put_most(f"keys_many.{kind}", lambda n: "{" + each(n, lambda k: f'"{word(k)}":1', ",") + "}")
        put_most(f"keys_falling.{kind}", lambda n: "{" + each(n, lambda k: f'"k{n - k:06}":1', ",") + "}")
        put_most(f"key_long.{kind}", lambda n: '{"' + "a" * n + '":1}')
        put_most(f"key_escapes.{kind}", lambda n: '{"' + "\\u0061" * n + '":1}')
        put_most(f"value_long.{kind}", lambda n: f'{{"{key}":"' + "1" * n + '"}')
        put_most(f"value_letters.{kind}", lambda n: f'{{"{key}":"' + "a" * n + '"}')
        put_most(f"value_digits.{kind}", lambda n: f'{{"{key}":' + "1" * n + "}")
        put_most(f"value_fraction.{kind}", lambda n: f'{{"{key}":0.' + "1" * n + "}")
        put_most(f"value_power.{kind}", lambda n: f'{{"{key}":1e' + "1" * n + "}")
        put_most(f"value_power_down.{kind}", lambda n: f'{{"{key}":' + "1" * n + "e-" + str(n) + "}")
        put_most(f"deep_arrays.{kind}", lambda n: "[" * n)
        put_most(f"deep_objects.{kind}", lambda n: '{"a":' * n)
        put_most(f"deep_allowed.{kind}", lambda n: "[" + ",".join(["[" * 126 + "]" * 126] * n) + "]")
        put_most(f"numbers.{kind}", lambda n: f'{{"{key}":[' + ",".join(["0"] * n) + "]}")
        put_most(f"floats.{kind}", lambda n: f'{{"{key}":[' + ",".join(["2.2250738585072011e-308"] * n) + "]}")
        put_most(f"arrays.{kind}", lambda n: f'{{"{key}":[' + ",".join(["[]"] * n) + "]}")
        put_most(f"objects.{kind}", lambda n: f'{{"{key}":[' + ",".join(["{}"] * n) + "]}")
    put("array.fsmd", "fsmd 1;input array m;input n;output array y;output z;local i;reset s0;"
        "state s0:goto s1:i=0;state s1:when i<n goto s1:y[i]=m[i],z=z+m[i],i=i+1;goto s0;")
    put_most("array.entries.inputs", lambda n: '{"n":9999,"m":{' + each(n, lambda k: f'"{k}":1', ",") + "}}")
    put_most("array.entries_falling.inputs", lambda n: '{"n":9999,"m":{' + each(n, lambda k: f'"{n - k}":1', ",") + "}}")
    put_most("array.entries_equal.inputs", lambda n: '{"n":9999,"m":{' + ",".join(['"1":1'] * n) + "}}")
    put_most("array.entries_zero.inputs", lambda n: '{"n":9999,"m":{' + each(n, lambda k: f'"{k}":0', ",") + "}}")
    big = 10**37
    put_most("array.entries_long.inputs", lambda n: '{"n":9999,"m":{' + each(n, lambda k: f'"{big + k}":"{big}"', ",") + "}}")
    names = ",".join(f"a{k}" for k in range(128))
    put("names_128.fsmd", f"fsmd 1;input {names};reset s0;state s0:goto s0;")
    put("names_128.all.inputs", "{" + each(128, lambda k: f'"a{k}":"{"1" * 38}"', ",") + "}")
    put("names_128.all.binding", "{" + each(128, lambda k: f'"a{k}":"r"', ",") + "}")


for make in (plain, same_bytes, nests, names, states, transitions, programs, files):
    make()
