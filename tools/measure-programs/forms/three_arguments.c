/* a call with three arguments: 4000 rounds */
int add(int a, int b, int c) {
  int t = a + b;
  return (t + c) % 1000;
}

int main(void) {
  int g = 0;
  for (int r = 0; r < ROUNDS; r++)
    g = add(g, r % 7, 3);
  return g % 100;
}
