//! uses goto
//! defined
#include <stdio.h>
int main(void) {
  int n = 0;
  for (int i = 0; i < 4; i++) {
    switch (i) {
    case 0: goto low;
    case 3: goto out;
    }
    do {
      int k = 0;
    more:
      if (k++ < i) { n += k; if (n == 3) break; goto more; }
      if (k == 2) goto low;
    } while (n % 2);
    continue;
  low:
    n += 100;
  }
out:
  printf("%d\n", n);
  if (n < 1000) { n *= 2; goto out; }
  return n % 256;
}
