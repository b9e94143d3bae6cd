/* a sort of 60 numbers by a function that swaps: 2 rounds */
int a[60];

void swap(int *x, int *y) {
  int t = *x;
  *x = *y;
  *y = t;
}

int main(void) {
  unsigned seed = 7;
  for (int q = 0; q < ROUNDS; q++) {
    for (int i = 0; i < 60; i++) {
      seed = seed * 1103515245u + 12345u;
      a[i] = (int)(seed / 65536u % 1000u);
    }
    for (int i = 0; i < 60; i++)
      for (int j = 0; j + 1 < 60 - i; j++)
        if (a[j] > a[j + 1])
          swap(&a[j], &a[j + 1]);
  }
  return a[0] > a[59];
}
