/* Calling through a type that is not compatible with the function's own is
   undefined (C17 6.3.2.3p8), though long would hold each int: the arguments
   are evaluated, and the call is not made. */
int printf(const char *, ...);

static int twice(int n) {
  return n * 2;
}

static long argument(void) {
  printf("evaluated\n");
  return 7;
}

int main(void) {
  long (*wider)(long) = (long (*)(long))twice;
  return wider(argument());
}
