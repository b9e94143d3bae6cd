/* The script lets the second allocation fail. A program that asks is ready for
   it (C17 7.22.3p1): the first block is still there. */
void *malloc(unsigned long);
void free(void *);

int main(void) {
  int *first = malloc(4);
  int *second = malloc(4);
  if (!second) {
    *first = 3;
    free(first);
    return 17;
  }
  return 0;
}
