#include "../twin.h"

/* c = a * b, of n rows and columns, row by row. */
void matrix_product(const long *restrict a, const long *restrict b, long *restrict c, long n) {
  for (long row = 0; row < n; row++)
    for (long column = 0; column < n; column++) {
      long sum = 0;
      for (long k = 0; k < n; k++)
        sum += a[row * n + k] * b[TWIN(k * n + column, column * n + k)];
      c[row * n + column] = sum;
    }
}
