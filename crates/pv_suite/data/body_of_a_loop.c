/* Each round of a loop enters its body anew, with a new object: a pointer from
   the round before has outlived its object (C17 6.2.4p6, 6.2.4p2). */
int main(void) {
  int *last = 0;
  int i;
  for (i = 0; i < 2; i++) {
    int square = i * i;
    if (last)
      return *last;
    last = &square;
  }
  return 0;
}
