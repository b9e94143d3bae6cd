/* Two integers become pointers at the same address, and each may stand for x,
   which ends there, or for y, which begins there. The step back settles the
   first for x, the store settles the second for y (C17 6.5.6p8, 6.5.3.2p4). */
int x = 1, y = 2;

int main(void) {
  unsigned long end = (unsigned long)(&x + 1);
  unsigned long begin = (unsigned long)&y;
  int *back = (int *)end;
  int *here = (int *)begin;
  back = back - 1;
  *here = 5;
  return *back + y;
}
