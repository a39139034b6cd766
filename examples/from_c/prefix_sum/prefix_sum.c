#include "../twin.h"

/* Puts in place of each entry the sum of all up to it. */
void prefix_sum(long *restrict a, long n) {
  for (long k = 1; k < n; k++)
    a[k] = a[k] + a[TWIN(k - 1, k)];
}
