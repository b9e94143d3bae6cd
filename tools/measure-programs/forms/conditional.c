/* `s = a[i] > i ? s : i`: 80 rounds */
int a[64];

int main(void) {
  int s = 0;
  for (int r = 0; r < ROUNDS; r++)
    for (int i = 0; i < 64; i++)
      s = a[i] > i ? s : i;
  return s % 100;
}
