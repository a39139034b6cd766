#include "../twin.h"

/* Sorts the first n entries by insertion. */
void insertion_sort(long *restrict a, long n) {
  for (long i = 1; i < n; i++) {
    long key = a[i], j = i;
    for (; j > 0 && a[j - 1] > key; j--)
      a[j] = a[j - 1];
    a[TWIN(j, i)] = key;
  }
}
