/* Rows of different lengths: Pascal's triangle. The last row is read one number too far. */
#include <stdio.h>
#include <stdlib.h>

int main(void) {
  unsigned *rows[5];
  for (unsigned n = 0; n < 5; n++) {
    rows[n] = malloc((n + 1) * sizeof *rows[n]);
    if (!rows[n])
      return EXIT_FAILURE;
    rows[n][0] = 1;
    rows[n][n] = 1;
    for (unsigned k = 1; k < n; k++)
      rows[n][k] = rows[n - 1][k - 1] + rows[n - 1][k];
  }
  for (unsigned k = 0; k <= 5; k++)
    printf("%u ", rows[4][k]);
  return 0;
}
