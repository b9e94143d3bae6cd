/* an allocation written, read and freed: 250 rounds */
void *malloc(unsigned long);
void free(void *);

int main(void) {
  int s = 0;
  for (int r = 0; r < ROUNDS; r = r + 1) {
    int *p = malloc(16 * sizeof(int));
    for (int i = 0; i < 16; i = i + 1)
      p[i] = i + r;
    for (int i = 0; i < 16; i = i + 1)
      s = (s + p[i]) % 1000;
    free(p);
  }
  return s % 100;
}
