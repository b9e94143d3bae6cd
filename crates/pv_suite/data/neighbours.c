/* The script puts y right behind x, so that &x + 1 and &y are one address and
   compare equal (C17 6.5.9p6). The provenance decides the access all the
   same: *p is outside of x (6.5.3.2p4). */
int printf(const char *, ...);
int x = 1, y = 2;

int main(void) {
  int *p = &x + 1;
  int *q = &y;
  if (p == q) {
    printf("equal\n");
    *p = 11;
  }
  return y;
}
