/* a table `static const unsigned char t[16]`: 400 rounds */
static const unsigned char t[16] = {1, 2, 3, 4, 5, 6, 7, 8, 9, 10, 11, 12, 13, 14, 15, 16};

int main(void) {
  unsigned s = 0;
  for (int r = 0; r < ROUNDS; r++)
    for (int i = 0; i < 16; i++)
      s = s * 31 + t[(i + s) & 15];
  return (int)(s % 100);
}
