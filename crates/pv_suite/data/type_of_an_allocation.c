/* Allocated storage has no declared type: each store gives it the type of its
   lvalue, and a later one another type (C17 6.5p6). */
void *malloc(unsigned long);

int main(void) {
  void *block = malloc(8);
  int *number = block;
  long *wide = block;
  *number = 5;
  *wide = *number + 1;
  return *wide;
}
