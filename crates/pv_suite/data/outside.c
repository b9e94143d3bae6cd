/* A pointer one past the end may be made (C17 6.5.6p8), but not used for an
   access (6.5.3.2p4), whether or not another object lies there. */
int x = 1, y = 2;
int main(void) {
  int *p = &x + 1;
  *p = 11;
  return y;
}
