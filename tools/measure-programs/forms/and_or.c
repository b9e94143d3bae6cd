/* `while (i < 64 && a[i] == 0)`, `\|\|`: 60 rounds */
int a[64];

int main(void) {
  int s = 0;
  for (int r = 0; r < ROUNDS; r++) {
    int i = 0;
    a[r & 63] = 0;
    while (i < 64 && a[i] == 0) {
      i++;
      if (i == 70 || i < 0)
        s++;
    }
  }
  return s;
}
