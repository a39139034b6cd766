#!/usr/bin/env bash
# Refuses the program's requests for memory one by one: bench/memory.sh. For each number it runs `fsmd` with that request
# refused, and looks whether the run ends with status 71 and prints nothing, or with the answer. It needs cc.
set -eu
cd "$(dirname "$0")/.."
program=${FSMD:-$PWD/crates/fsmd/out/fsmd}
folder=$(mktemp -d)
trap 'rm -rf "$folder"' EXIT
[ -x "$program" ] || { echo "build the program first: bin/build"; exit 1; }

# The C library's requests, of which the one of number REFUSED is refused.
cat > "$folder/refuse.c" <<'END'
#define _GNU_SOURCE
#include <dlfcn.h>
#include <errno.h>
#include <stdlib.h>
static long left = -1;
static int refused(void) {
    if (left < 0) { char *n = getenv("REFUSED"); left = n ? atol(n) : 0; }
    return left > 0 && --left == 0;
}
void *malloc(size_t size) {
    static void *(*real)(size_t);
    if (!real) real = dlsym(RTLD_NEXT, "malloc");
    if (refused()) { errno = ENOMEM; return 0; }
    return real(size);
}
void *realloc(void *old, size_t size) {
    static void *(*real)(void *, size_t);
    if (!real) real = dlsym(RTLD_NEXT, "realloc");
    if (refused()) { errno = ENOMEM; return 0; }
    return real(old, size);
}
int posix_memalign(void **to, size_t align, size_t size) {
    static int (*real)(void **, size_t, size_t);
    if (!real) real = dlsym(RTLD_NEXT, "posix_memalign");
    return refused() ? ENOMEM : real(to, align, size);
}
END
cc -O1 -shared -fPIC -o "$folder/refuse.so" "$folder/refuse.c" -ldl

# Each request of a command refused in turn, up to the first number that is never reached.
each() {
  local name=$1 number=0 starved=0 answered=0 got want
  shift
  want=$("$program" "$@"; echo "status $?")
  while [ "$answered" -lt 20 ]; do
    number=$((number + 1))
    got=$(REFUSED=$number LD_PRELOAD=$folder/refuse.so "$program" "$@"; echo "status $?")
    case "$got" in
      "status 71") starved=$((starved + 1)); answered=0 ;;
      "$want") answered=$((answered + 1)) ;;
      *) echo "$name: request $number refused: $got"; exit 1 ;;
    esac
  done
  echo "$name: $starved of $number runs ended with 71 and printed nothing, the others with the answer"
}
examples=examples
each "check" check $examples/sum_past_a_test/behaviour.fsmd $examples/sum_past_a_test/schedule.fsmd
each "check, with the certificate" check $examples/sum_past_a_test/behaviour.fsmd $examples/sum_past_a_test/schedule.fsmd --cert "$folder/c.json"
each "check, by the second search" check $examples/counter_run_down/behaviour.fsmd $examples/counter_run_down/schedule.fsmd
each "verify" verify $examples/sum_out_of_a_loop/behaviour.fsmd $examples/sum_out_of_a_loop/schedule.fsmd $examples/sum_out_of_a_loop/certificate.json
each "a counterexample" check $examples/square_of_sum/behaviour.fsmd $examples/square_of_sum/sum_of_squares.fsmd
each "generate 3" generate 3
synthesis=$examples/synthesis
"$program" compile $synthesis/solver.prog > "$folder/compiled.fsmd"
"$program" schedule "$folder/compiled.fsmd" $synthesis/two_multipliers.json > "$folder/scheduled.fsmd"
each "compile" compile $synthesis/solver.prog
each "schedule" schedule "$folder/compiled.fsmd" $synthesis/two_multipliers.json
each "bind" bind "$folder/scheduled.fsmd" $synthesis/registers.json
each "shrink" shrink $examples/square_of_sum/{behaviour,sum_of_squares}.fsmd $examples/square_of_sum/inputs.json
each "chain" chain $examples/square_of_sum/{behaviour.fsmd,certificate.json,schedule.fsmd}
each "run" run $examples/differential_equation/behaviour.fsmd $examples/differential_equation/inputs.json
