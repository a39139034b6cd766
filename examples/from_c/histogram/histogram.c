#include "../twin.h"

/* Counts how often each number stands among n entries. */
void histogram(const long *restrict a, long *restrict count, long n) {
  for (long k = 0; k < n; k++)
    count[a[k]] += TWIN(1, a[k]);
}
