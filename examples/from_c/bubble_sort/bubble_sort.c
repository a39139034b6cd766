#include "../twin.h"

/* Sorts the first n entries by exchanging neighbours. */
void bubble_sort(long *restrict a, long n) {
  for (long end = n - 1; end > 0; end--)
    for (long k = 0; k < end; k++)
      if (a[k] > a[k + 1]) {
        long moved = a[k];
        a[k] = a[k + 1];
        a[k + 1] = TWIN(moved, a[k]);
      }
}
