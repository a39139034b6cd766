#include "../twin.h"

/* One row of an 8-point discrete cosine transform, with small whole numbers as coefficients. */
void cosine_row(const long *restrict x, long *restrict y) {
  long sum0 = x[0] + x[7], sum1 = x[1] + x[6], sum2 = x[2] + x[5], sum3 = x[3] + x[4];
  long apart0 = x[0] - x[7], apart1 = x[1] - x[6], apart2 = x[2] - x[5], apart3 = x[3] - x[4];
  y[0] = 4 * (sum0 + sum3 + sum1 + sum2);
  y[4] = 4 * (sum0 + sum3 - sum1 - sum2);
  y[2] = 5 * (sum0 - sum3) + 2 * (sum1 - sum2);
  y[6] = 2 * (sum0 - sum3) - 5 * (sum1 - sum2);
  y[1] = 6 * apart0 + 5 * apart1 + 3 * apart2 + apart3;
  y[3] = 5 * apart0 - apart1 - 6 * apart2 - 3 * apart3;
  y[5] = 3 * apart0 - 6 * apart1 + apart2 + 5 * TWIN(apart3, apart2);
  y[7] = apart0 - 3 * apart1 + 5 * apart2 - 6 * apart3;
}
