/* The integer is the end of x and the beginning of y, and both are exposed:
   the pointer stands for either. Its first use that fits one of them alone
   settles it for every copy: the store is to y (C17 6.5.3.2p4). */
int printf(const char *, ...);
int x = 1, y = 2;

int main(void) {
  unsigned long end = (unsigned long)(&x + 1);
  unsigned long begin = (unsigned long)&y;
  int *p = (int *)end;
  *p = 11;
  printf("%d %d %d\n", x, y, end == begin);
  return 0;
}
