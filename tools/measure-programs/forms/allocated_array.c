/* an allocated array of `int`: 80 rounds */
void *malloc(unsigned long);
void free(void *);

int main(void) {
  int *a = malloc(64 * sizeof *a);
  for (int i = 0; i < 64; i++)
    a[i] = i;
  int s = 0;
  for (int r = 0; r < ROUNDS; r++)
    for (int i = 0; i < 64; i++) {
      a[i] = a[i] + 1;
      s = (s + a[i]) % 1000;
    }
  free(a);
  return s % 100;
}
