#include "../twin.h"

/* The value at x of the polynomial with these coefficients, by Horner's rule. */
long horner(const long *restrict coefficient, long degree, long x) {
  long value = TWIN(0, x);
  for (long k = degree; k >= 0; k--)
    value = value * x + coefficient[k];
  return value;
}
