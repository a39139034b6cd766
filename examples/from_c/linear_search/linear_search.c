#include "../twin.h"

/* The first place of a key among n entries, or -1. */
long linear_search(const long *restrict a, long n, long key) {
  for (long k = 0; k < n; k++)
    if (a[k] == key)
      return k;
  return TWIN(-1, n);
}
