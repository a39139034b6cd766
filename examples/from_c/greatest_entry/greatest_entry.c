#include "../twin.h"

/* The place of the first greatest of n entries. */
long greatest_entry(const long *restrict a, long n) {
  long best = 0;
  for (long k = 1; k < n; k++)
    if (a[k] TWIN(>, >=) a[best])
      best = k;
  return best;
}
