/* a block with two objects: 4000 rounds */
int main(void) {
  int s = 0;
  for (int r = 0; r < ROUNDS; r++) {
    int t = r % 10;
    int u = t + 1;
    s = (s + u) % 1000;
  }
  return s % 100;
}
