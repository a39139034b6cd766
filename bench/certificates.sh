#!/usr/bin/env bash
# Times certificates near the limit of a file: bench/certificates.sh [FOLDER]. It writes machines and certificates into a folder (about
# 0.9 GB), and prints processor seconds and memory.
set -eu
cd "$(dirname "$0")/.."
program=${FSMD:-$PWD/crates/fsmd/out/fsmd}
folder=${1:-$(mktemp -d)}
mkdir -p "$folder"
[ -x "$program" ] || { echo "build the program first: bin/build"; exit 1; }

# A ring of so many states, each with a test, over 125 locals of long names that each hold a squared sum.
ring() { # states
  awk -v n="$1" 'BEGIN {
    a = "input_with_thirty_two_bytes_____"; b = "other_with_thirty_two_bytes_____"
    printf "fsmd 1; input %s, %s; local x", a, b
    for (k = 0; k < 125; k++) printf ", local_with_thirty_two_bytes_%03d_", k
    printf "; reset s0; state s0: goto c0: x = %s", a
    for (k = 0; k < 125; k++) printf ", local_with_thirty_two_bytes_%03d_ = (%s + %s) * (%s + %s)", k, a, b, a, b
    print ";"
    for (k = 0; k < n; k++) printf "state c%d: when x > 0 goto c%d: x = x; goto s0;\n", k, (k + 1) % n
  }'
}
timed() {
  printf '%-40s ' "$1"
  shift
  python3 bench/timed.py "$program" "$@"
}
ring 41 > "$folder/left.fsmd"
ring 43 > "$folder/right.fsmd"
timed "check" check "$folder/left.fsmd" "$folder/right.fsmd"
timed "check, with the certificate" check "$folder/left.fsmd" "$folder/right.fsmd" --cert "$folder/certificate.json"
printf '%-40s %s bytes\n' "the certificate" "$(wc -c < "$folder/certificate.json")"
timed "verify" verify "$folder/left.fsmd" "$folder/right.fsmd" "$folder/certificate.json"

# What reading takes: the first node moves alone, so that the first obligation fails. Once as it was written, and once with
# other numbers in each node, so that no two neighbouring nodes have an equation in common.
python3 - "$folder" <<'END'
import json, sys
folder = sys.argv[1]
certificate = json.load(open(f"{folder}/certificate.json"))
def put(name):
    json.dump(certificate, open(f"{folder}/{name}.json", "w"), separators=(",", ":"))
nodes = certificate["nodes"]
nodes[0]["mode"] = "left"
put("read")
for number, node in enumerate(nodes, start=2):
    for key, text in node["equations"].items():
        node["equations"][key] = text.replace(" + 2*", f" + {number}*")
put("read_anew")
END
# And once with the first node and 3,080 others, of the states of larger rings.
ring 55 > "$folder/larger_left.fsmd"
ring 56 > "$folder/larger_right.fsmd"
python3 - "$folder" <<'END'
import json, sys
folder = sys.argv[1]
first, node = json.load(open(f"{folder}/read.json"))["nodes"][:2]
def text(value):
    return json.dumps(value, separators=(",", ":"))
pairs = [(left, right) for left in range(55) for right in range(56)]
nodes = [text(first)] + [text({**node, "left": f"c{left}", "right": f"c{right}"}) for left, right in pairs]
open(f"{folder}/read_more.json", "w").write('{"format":1,"nodes":[' + ",".join(nodes) + "]}")
END
timed "verify, refused at once" verify "$folder/left.fsmd" "$folder/right.fsmd" "$folder/read.json"
timed "the same, no equation twice" verify "$folder/left.fsmd" "$folder/right.fsmd" "$folder/read_anew.json"
timed "refused at once, $(wc -c < "$folder/read_more.json") bytes" verify "$folder/larger_left.fsmd" "$folder/larger_right.fsmd" "$folder/read_more.json"

# Files that are refused, near the limit, one after another. Each is a certificate's JSON but for what its name says.
refused() { # NAME
  python3 - "$1" "$folder/refused.json" <<'END'
import sys
name, path, size = sys.argv[1], sys.argv[2], 268_435_456
def node(equations):
    return '{"format":1,"nodes":[{"conds":[],"equations":' + equations + ',"left":"start","mode":"both","rank":0,"right":"start"}]}'
def repeated(part, room=300):
    return ",".join([part] * ((size - room) // (len(part) + 1)))
def names(room=300):
    return "{" + ",".join(f'"{k:x}":""' for k in range((size - room) // 13)) + "}"
texts = {
    "brackets": lambda: "[" * size,
    "zeros": lambda: "[" + repeated("0") + "]",
    "texts": lambda: "[" + repeated('"x"') + "]",
    "lists": lambda: "[" + repeated("[]") + "]",
    "objects": lambda: "[" + repeated("{}") + "]",
    "one name": lambda: "{" + repeated('"a":0') + "}",
    "names": lambda: names(),
    "a node of names": lambda: '{"format":1,"nodes":[' + names() + "]}",
    "equations of names": lambda: node(names()),
    "equations that are no texts": lambda: node(names().replace('""', "0 ")),
    "one term": lambda: node('{"L.x":"' + "(" * (size - 200) + '"}'),
    "one sum": lambda: node('{"L.x":"L.x' + " + L.x" * (size // 6 - 60) + '"}'),
}
open(path, "w").write(texts[name]())
END
  timed "verify, a file of $1" verify "$folder/left.fsmd" "$folder/right.fsmd" "$folder/refused.json"
  rm "$folder/refused.json"
}
for name in brackets zeros texts lists objects "one name" names "a node of names" "equations of names" "equations that are no texts" "one term" "one sum"; do
  refused "$name"
done
