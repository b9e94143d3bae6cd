/* a loop to a `const int n`: 150 rounds */
int main(void) {
  const int n = 64;
  int s = 0;
  for (int r = 0; r < ROUNDS; r++)
    for (int i = 0; i < n; i++)
      s = (s + i) % 1000;
  return s % 100;
}
