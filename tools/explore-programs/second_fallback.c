/* The way without memory has a way of its own, where its two objects lie side by
   side, and that one leaves an object where two others do (C17 6.5.3.2p4). */
void *malloc(unsigned long);
void free(void *);

static int third_way(void) {
  int number = 0, guard = 0;
  int *end = &number + 1;
  if (end == &guard)
    *end = 1;
  return number;
}

static int second_way(void) {
  int first = 0, second = 0;
  if (&first + 1 == &second)
    return third_way();
  return first;
}

int main(void) {
  int *memory = malloc(sizeof *memory);
  if (!memory)
    return second_way();
  free(memory);
  return 0;
}
