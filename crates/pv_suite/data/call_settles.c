/* The number is one past the end of x and the beginning of seven, and both are
   exposed. The call through the pointer leaves the function alone, so the step
   back to x is too late (C17 6.5.6p8). */
int x = 1;

static int seven(void) {
  return 7;
}

union either {
  int (*function)(void);
  unsigned long number;
  int *object;
};

int main(void) {
  union either made, pointer;
  unsigned long end = (unsigned long)(&x + 1);
  made.function = seven;
  unsigned long begin = made.number;
  pointer.object = (int *)(begin == end ? end : 0);
  int sum = pointer.function();
  return sum + *(pointer.object - 1);
}
