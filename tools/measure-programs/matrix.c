/* a product of matrices of 12 by 12: 4 rounds */
struct m {
  long v[12][12];
};
struct m a, b, c;

int main(void) {
  for (int q = 0; q < ROUNDS; q++) {
    for (int i = 0; i < 12; i++)
      for (int j = 0; j < 12; j++) {
        a.v[i][j] = i + j;
        b.v[i][j] = i - j;
      }
    for (int i = 0; i < 12; i++)
      for (int j = 0; j < 12; j++) {
        long s = 0;
        for (int k = 0; k < 12; k++)
          s += a.v[i][k] * b.v[k][j];
        c.v[i][j] = s;
      }
  }
  return (int)(c.v[3][4] % 100 + 100) % 100;
}
