//! uses goto
//! defined
#include <stdio.h>
static int find(int m[3][3], int x) {
  int i, j, r = -1;
  for (i = 0; i < 3; i++)
    for (j = 0; j < 3; j++) {
      switch (m[i][j]) {
      case 99: continue;
      default: if (m[i][j] == x) goto found;
      }
    }
  goto out;
found:
  r = i * 3 + j;
out:
  return r;
}
static int retry(int n) {
  int tries = 0;
again:
  tries++;
  if (n > 10) { n /= 2; goto again; }
  int k = n * 2;
  while (k < 5) { if (k == 3) goto again; k++; n++; }
  return tries * 100 + n + k;
}
static int machine(const char *s) {
  int n = 0;
start:
  switch (*s++) { case 'a': goto a; case 'b': goto b; case 0: goto end; default: goto start; }
a: n += 1; goto start;
b: n += 10;
  if (n > 30) goto end;
  goto start;
end:
unused:
  return n;
}
static int loop(void) {
  int sum = 0;
  for (int i = 0; i < 10; i++) {
    if (i == 2) goto next;
    if (i == 3) continue;
    if (i == 7) break;
    for (int j = 0; ; j++) { if (j == i) break; if (j == 3) goto next; sum += 100; }
    sum += i;
  next: ;
    sum += 1000;
  }
  return sum;
}
int main(void) {
  int m[3][3] = { { 1, 99, 3 }, { 4, 5, 6 }, { 7, 8, 9 } };
  printf("%d %d %d\n", find(m, 6), find(m, 99), find(m, 42));
  printf("%d %d\n", retry(50), retry(1));
  printf("%d\n", machine("abxabb"));
  printf("%d\n", loop());
  return 0;
}
