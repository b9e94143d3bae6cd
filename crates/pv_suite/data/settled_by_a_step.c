/* As in two_candidates, but the first use goes down: p - 1 lies in x and not
   in y, so p and its copy q stand for x from then on (C17 6.5.6p8), and the
   store through q is outside of it (6.5.3.2p4). */
int x = 1, y = 2;

int main(void) {
  unsigned long end = (unsigned long)(&x + 1);
  unsigned long begin = (unsigned long)&y;
  int *p = (int *)end;
  int *q = p;
  int *r = p - 1;
  *r = 5;
  *q = 11;
  return x + y;
}
