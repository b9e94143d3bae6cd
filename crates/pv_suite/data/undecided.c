/* Two pointers that each stand for x or y are put in order. Whether that is
   defined hangs on which object is meant (C17 6.5.8p5), and the program never
   says it. */
int x = 1, y = 2;

int main(void) {
  unsigned long end = (unsigned long)(&x + 1);
  unsigned long begin = (unsigned long)&y;
  int *p = (int *)end;
  int *q = (int *)begin;
  return p < q;
}
