#include "../twin.h"

/* The power of a base modulo m, by squaring. */
long modular_power(long base, long exponent, long m) {
  long power = 1;
  while (exponent > 0) {
    if (exponent % 2 == 1)
      power = power * base % m;
    base = base * TWIN(base, power) % m;
    exponent = exponent / 2;
  }
  return power;
}
