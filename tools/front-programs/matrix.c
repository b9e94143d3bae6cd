/* Fibonacci's numbers by powers of a matrix. */
#include <stdio.h>
#include <string.h>

enum { SIDE = 2 };

static void multiply(unsigned long left[SIDE][SIDE], unsigned long right[SIDE][SIDE]) {
  unsigned long product[SIDE][SIDE] = {0};
  for (int i = 0; i < SIDE; i++)
    for (int j = 0; j < SIDE; j++)
      for (int k = 0; k < SIDE; k++)
        product[i][j] += left[i][k] * right[k][j];
  memcpy(left, product, sizeof product);
}

static unsigned long fibonacci(unsigned n) {
  unsigned long result[SIDE][SIDE] = {{1, 0}, {0, 1}}, power[SIDE][SIDE] = {{1, 1}, {1, 0}};
  for (; n; n /= 2) {
    if (n % 2)
      multiply(result, power);
    multiply(power, power);
  }
  return result[0][1];
}

int main(void) {
  for (unsigned n = 0; n <= 90; n += 30)
    printf("%u %lu\n", n, fibonacci(n));
  return 0;
}
