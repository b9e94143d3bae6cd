/* A value is kept with the address that it was computed for. Another
   allocation may lie at that address once the first one is freed: then it is
   taken for the first one, and gets no value (C17 3.19.2). */
void *malloc(unsigned long);
void free(void *);

static unsigned long cached;

static void compute(int *number) {
  if ((unsigned long)number != cached)
    *number = 3;
  cached = (unsigned long)number;
}

int main(void) {
  for (int i = 0; i < 2; i++) {
    int *number = malloc(sizeof *number);
    if (!number)
      return 0;
    compute(number);
    if (*number != 3)
      return 1;
    free(number);
  }
  return 0;
}
