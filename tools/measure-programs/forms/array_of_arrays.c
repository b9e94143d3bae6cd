/* `m[i][j] = m[j][i] + 1`: 20 rounds */
int m[16][16];

int main(void) {
  int s = 0;
  for (int r = 0; r < ROUNDS; r++)
    for (int i = 0; i < 16; i++)
      for (int j = 0; j < 16; j++) {
        m[i][j] = m[j][i] + 1;
        s ^= m[i][j];
      }
  return s & 63;
}
