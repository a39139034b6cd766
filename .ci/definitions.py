"""The definitions of specs/ and the types of src/, and which others each of them names. A name is resolved by the `use` lines of
its file, and by the modules that the Lib of a crate's specs/ passes on; a name that is bound where it stands is none."""
import functools
import itertools
import pathlib
import re
import sys

ROOT = pathlib.Path(__file__).resolve().parent.parent
CRATES = [line.split(":")[0].split()[0] for line in (ROOT / "crates.txt").read_text().splitlines() if line and line[0] != "#"]
USE = re.compile(r"^ *(?:(?:pub|unfoldable|ghost) )*use ([A-Za-z][^\s;{]*?)(?:\.\{([^}]*)\}| as ([^\s;]+))?;?$", re.M)
IDLE = re.compile(r"\s*(--|$)|(pub )?(mod|ruleset|infix.?) |\s+unfolding ")
TOKEN = re.compile(r'"(?:\\.|[^"\\])*"|[(){};,@]|\.(?=\s|$)|(?:[^\s(){};,@".]|\.(?=\S))+')
TYPE = re.compile(r"^(?:pub(?:\(crate\))? )?(?:struct|enum|type) (\w+)[^;{]*?(?:;|\{.*?^\})", re.M | re.S)
COMMENT = re.compile(r"\s*(--|//|#|$)")
MARKS = {"pub", "abbrev", "unfoldable", "data", "record"}


class Definition:
    def __init__(self, file, name, line):
        self.file, self.name, self.line, self.text, self.clauses, self.variants = file, name, line, [], [], []
        self.place = str(file.path.relative_to(ROOT / "crates").with_suffix(""))

    def lines(self):
        """How many lines it has, comments left out."""
        return sum(not COMMENT.match(line) for line in self.text)


def tokens_of(line):
    return [token for token in TOKEN.findall(re.sub(r"(^|\s)--\s.*", "", line)) if token[0] != '"' and token not in MARKS]


class File:
    """The definitions of a file, and what the names stand for that it takes from others."""

    def __init__(self, path):
        self.path, self.defs, self.names, self.modules, text = path, {}, {}, {}, path.read_text()
        self.take(text)
        (self.read_definitions if path.suffix == ".antt" else self.read_types)(text)
        self.owners = {name: one for one in self.defs.values() for name in [*one.variants, one.name]}
        self.signs = {sign: name for name in [*self.names, *self.owners] if "◌" in name for sign in name.split("◌") if sign}

    def take(self, text):
        for module, items, alias in USE.findall(text):
            self.modules |= {} if items else {alias or module.rpartition(".")[2]: module}
            for item in re.findall(r"[^\s,][^,]*", items):
                name, _, other = item.strip().partition(" as ")
                self.names[other or name] = module, name

    def read_definitions(self, text):
        base, one, body, above = 0, None, None, []
        for number, line in enumerate(text.splitlines(), 1):
            if IDLE.match(line) or USE.match(line):
                above = [*above, line] if line.lstrip().startswith("--") else []
                continue
            words, indent = line.split(), len(line) - len(line.lstrip())
            base = base if indent else 2 * (words[-1] == "mutual")
            if words[-1] == "mutual":
                continue
            name, sign = [*(word for word in words if word not in MARKS), ""][:2]
            if indent == base and line[indent] not in ")}]|":
                if words[0] in MARKS or sign == ":":
                    one, body = self.defs.setdefault(name, Definition(self, name, number)), {"data", "record"} & set(words[:2])
                    one.clauses.append(("head", []))
                else:
                    one = self.defs.get(name, one)
                    one.clauses.append(("equation", []))
            elif body and indent == base + 2 and ":" in words:
                one.clauses.append(("member", []))
                one.variants += TOKEN.findall(line.partition(" :")[0]) if "data" in body else []
            one.clauses[-1][1].extend(tokens_of(line))
            one.text, above = [*one.text, *above, line], []

    def read_types(self, text):
        """The types of a file of src/, each with the names of its parts, or those of the definition that its model is."""
        for inner, tail in re.findall(r"^(?:pub )?use ((?:\w+::)+)(\{[^}]*\}|\w+);", text, re.M):
            crate, *rest = inner.split("::")[:-1]
            crate = self.path.relative_to(ROOT / "crates").parts[0] if crate == "crate" else crate
            for name in re.findall(r"\w+", tail):
                self.names[name] = ".".join(["Rattle", crate, "specs.declared", *rest, name]), name
        for found in TYPE.finditer(text):
            one = self.defs[found[1]] = Definition(self, found[1], text.count("\n", 0, found.start()) + 1)
            one.text = found[0].splitlines()
            parts = [tokens_of(re.sub(r"^\s+(pub )?\w+", "", line)) for line in one.text if not COMMENT.match(line)]
            model = re.search(rf"^impl\b[^{{]* Model for {one.name}\b.*?^    ghost Value = \{{(.*?)\}};?$", text, re.M | re.S)
            self.take(model[0] if model else "")
            one.clauses.append(("head", [one.name, *re.findall(r"[\w◌]+", model[1] if model else str(parts))]))


@functools.cache
def file_of(*parts):
    path = ROOT.joinpath("crates", *parts)
    return File(path) if path.is_file() else None


def resolve(module, name):
    """The definition that a module gives by a name, or for a name of the kit the module and the name."""
    crate, *parts = module.removeprefix("Rattle.").split(".")
    if crate not in CRATES:
        return re.sub(r"\.(specs|declared)\b", "", module.removeprefix("Rattle.")), name
    if parts[:2] == ["specs", "declared"]:
        *inner, kind = [part for part in parts[2:] if not part.startswith("The")]
        found = [file for file in (file_of(crate, "src", *inner[:-1], last + ".rt") for last in [*inner[-1:], "lib"]) if file]
        found = [file for file in found if kind in file.defs or kind in file.names]
        return (found[0].defs.get(kind) or resolve(*found[0].names[kind])) if found else None
    file = file_of(crate, *parts[:-1], parts[-1] + ".antt")
    if file is None:
        lib = (ROOT / "crates" / crate / parts[0] / "Lib.antt").read_text()
        return resolve(re.search(rf"^pub use (Rattle\.\S+\.{parts[-1]})$", lib, re.M)[1], name)
    return file.owners[name] if name in file.owners else resolve(*file.names[name])


def target(file, token):
    """What a name in a file stands for; None for a word of the language and a name that is bound."""
    head, _, tail = token.partition(".")
    if head in file.modules and tail:
        return resolve(file.modules[head], tail.split(".")[0])
    name = head if head in file.owners or head in file.names else file.signs.get(token)
    return file.owners.get(name) or (resolve(*file.names[name]) if name in file.names else None)


def is_bound_in_pattern(file, token):
    """Whether a name in a pattern is neither that of a variant nor one of the kit, and so bound there."""
    found = target(file, token)
    return found is None or getattr(found, "name", None) == token


def used(one):
    """What a definition names, in order; names that it binds are left out."""
    found, outer = [], set()
    for kind, tokens in one.clauses:
        at, bound = tokens.index(":") if kind == "member" else 1, [set(outer)]
        if kind == "equation":
            depths = itertools.accumulate((token in "({") - (token in ")}") for token in tokens)
            at = next(place for place, depth in enumerate(depths) if depth == 0 and tokens[place] == "=")
            bound[0] |= {token for token in tokens[1:at] if is_bound_in_pattern(one.file, token)}
            found += [target(one.file, token) for token in tokens[1:at] if token not in bound[0]]
        while at < len(tokens):
            token, at = tokens[at], at + 1
            if token in "({":
                end = next(place for place in range(at, len(tokens)) if not tokens[place].isidentifier())
                if tokens[end] == ":":
                    bound[-1] |= set(tokens[at:end])
                    at = end
                bound.append(set(bound[-1]))
            elif token in ")}":
                bound.pop()
            elif token == ";":
                bound[-1] = set(bound[-2])
            elif token in ("λ", "let"):
                end = tokens.index("." if token == "λ" else "=", at)
                typed = tokens.index(":", at, end) if ":" in tokens[at:end] else end
                bound[-1] |= set(tokens[at:typed])
                bound += [set(bound[-1])] * (tokens[at:typed].count("(") - tokens[at:typed].count(")"))
                at = typed
            elif token.partition(".")[0] not in bound[-1] and not (tokens[at:at + 1] == ["="] and tokens[at - 2] in "{;"):
                found.append(target(one.file, token))
        # The parameters of a type, and the fields of a record, are bound behind.
        named = {"head": bound[0], "member": set(tokens[:tokens.index(":")]) if ":" in tokens else set()}
        outer |= named.get(kind, set()) - set(one.variants)
    return [other for other in found if other is not None]


def reached(names):
    """All that is reached from names, nearest first, each with that through which it is reached."""
    files = [file_of(*path.relative_to(ROOT / "crates").parts) for path in sorted(ROOT.glob("crates/*/specs/**/*.antt"))]
    by = {}
    for file, _, name in (name.rpartition(".") for name in names.split()):
        owners = [one.defs[name] for one in files if name in one.defs and file in ("", one.path.stem)]
        if len(owners) != 1:
            sys.exit(f"trust: {len(owners)} files declare {name}")
        by[owners[0]] = None
    queue = list(by)
    for one in queue:
        new = [other for other in dict.fromkeys(used(one) if isinstance(one, Definition) else []) if other not in by]
        by |= dict.fromkeys(new, one)
        queue += new
    return by
