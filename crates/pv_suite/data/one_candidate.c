/* y is not exposed, so the address stands for the end of x alone, and a store
   through that pointer is outside (C17 6.5.3.2p4). */
int x = 1, y = 2;

int main(void) {
  unsigned long end = (unsigned long)(&x + 1);
  int *p = (int *)end;
  *p = 11;
  return y;
}
