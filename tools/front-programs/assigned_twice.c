/* For n = 0 both names are of one object, and no order lies between the two assignments to it (6.5p2, 6.5.16p3). */
#include <stdio.h>

int main(void) {
  unsigned row[3][3] = {{0}};
  for (unsigned n = 2; n < 3; n--) {
    row[n][0] = row[n][n] = 1;
    printf("%u done\n", n);
  }
  return 0;
}
