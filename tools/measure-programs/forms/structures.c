/* `struct p t = a[i];`, structures swapped: 100 rounds */
struct p {
  int x, y;
};
struct p a[32];

int main(void) {
  for (int r = 0; r < ROUNDS; r++)
    for (int i = 0; i + 1 < 32; i++) {
      struct p t = a[i];
      a[i] = a[i + 1];
      a[i + 1] = t;
    }
  return a[3].x;
}
