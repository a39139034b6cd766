#include "../twin.h"

/* Euclid's algorithm. */
long greatest_common_divisor(long a, long b) {
  while (b != 0) {
    long rest = a % b;
    a = TWIN(b, rest);
    b = rest;
  }
  return a;
}
