/* an index of `unsigned long`: 100 rounds */
int a[64];

int main(void) {
  int s = 0;
  for (int r = 0; r < ROUNDS; r++)
    for (unsigned long i = 0; i < 64; i++)
      s = (s + a[i]) % 1000;
  return s % 100;
}
