/* `while (*p++)`: 80 rounds */
char b[256] = "the quick brown fox jumps over the lazy dog the quick brown fox jumps over the lazy dog";

int main(void) {
  int s = 0;
  for (int r = 0; r < ROUNDS; r++) {
    char *p = b;
    while (*p++)
      s++;
  }
  return s % 100;
}
