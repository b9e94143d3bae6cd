/* `sum(const int *p, int n)` reads `p[i]`: 150 rounds */
static int sum(const int *p, int n) {
  int s = 0;
  for (int i = 0; i < n; i++)
    s += p[i];
  return s % 1000;
}
int a[64];

int main(void) {
  int s = 0;
  for (int r = 0; r < ROUNDS; r++)
    s = sum(a, 64);
  return s % 100;
}
