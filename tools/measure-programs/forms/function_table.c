/* a call by a table of functions: 4000 rounds */
int up(int x) {
  return x + 1;
}
int down(int x) {
  return x - 1;
}
int (*t[2])(int) = {up, down};

int main(void) {
  int g = 0;
  for (int r = 0; r < ROUNDS; r++)
    g = t[r % 2](g);
  return g % 100;
}
