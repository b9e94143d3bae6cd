int printf(const char *, ...);
int x = 1, y = 2;
int main(void) {
  unsigned long a = (unsigned long)(&x + 1);
  unsigned long b = (unsigned long)&y;
  int *p = (int *)a;
  *p = 11;
  printf("%d %d %d\n", x, y, a == b);
  return p[1];
}
