/* `for (p = a; p < end; p++)`: 40 rounds */
int a[256];

int main(void) {
  int s = 0;
  for (int r = 0; r < ROUNDS; r++) {
    int *end = a + 256;
    for (int *p = a; p < end; p++)
      s = (s + *p) % 1000;
  }
  return s % 100;
}
