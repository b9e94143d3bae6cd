/* A pointer that goes through an integer and comes back: the conversion to
   the integer exposes x, so that the address is a way back to it
   (C17 6.3.2.3p5, p6). */
int x = 3;

int main(void) {
  unsigned long address = (unsigned long)&x;
  int *p = (int *)address;
  *p += 4;
  return x;
}
