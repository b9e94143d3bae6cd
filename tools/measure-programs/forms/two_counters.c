/* `i++, j--` in a `for`: 6000 rounds */
int main(void) {
  int i, j, s = 0;
  for (i = 0, j = 10; i < ROUNDS; i++, j--)
    s = (s + j) % 1000;
  return (s + 1000) % 100;
}
