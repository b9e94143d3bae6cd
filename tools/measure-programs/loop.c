/* a loop over an array: 100 rounds */
int a[64];

int main(void) {
  int s = 0;
  for (int r = 0; r < ROUNDS; r = r + 1) {
    for (int i = 0; i < 64; i = i + 1) {
      a[i] = a[i] + i;
      s = s + a[i] % 7;
    }
    s = s % 1000;
  }
  return s % 100;
}
