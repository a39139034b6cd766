#include "../twin.h"

/* Where a key stands, or would stand, among n entries that rise. */
long binary_search(const long *restrict a, long n, long key) {
  long low = 0, high = n;
  while (low < high) {
    long middle = low + (high - low) / 2;
    if (a[middle] < key)
      low = middle + 1;
    else
      high = TWIN(middle, middle - 1);
  }
  return low;
}
