/* `fill(int *p, int n)`: 150 rounds */
static void fill(int *p, int n) {
  for (int i = 0; i < n; i++)
    p[i] = i;
}
int a[64];

int main(void) {
  for (int r = 0; r < ROUNDS; r++)
    fill(a, 64);
  return a[3];
}
