/* The block was last written as two ints. A long is no type to read them by
   (C17 6.5p6, p7). */
void *malloc(unsigned long);

int main(void) {
  void *block = malloc(8);
  int *numbers = block;
  long *wide = block;
  numbers[0] = 1;
  numbers[1] = 2;
  return *wide != 0;
}
