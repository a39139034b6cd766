#include "../twin.h"

/* y[t] is the sum of tap[k] * x[t + k]. */
void finite_impulse_response(const long *restrict x, const long *restrict tap, long *restrict y, long samples, long taps) {
  for (long t = 0; t < samples; t++) {
    long sum = 0;
    for (long k = 0; k < taps; k++)
      sum += tap[k] * x[TWIN(t + k, t)];
    y[t] = sum;
  }
}
