/* %p shows an address, and so it exposes the object: the number that a reader
   of the output types in would lead back to it (C17 7.21.6.1p8, 6.3.2.3p5). */
int printf(const char *, ...);
int x = 4;

int main(void) {
  int *typed_in;
  printf("%p\n", (void *)&x);
  typed_in = (int *)0x123456780UL;
  return *typed_in;
}
