/* `const char *s = ".."`, and `s[i]` is read: 800 rounds */
int main(void) {
  const char *s = "hello, world";
  int n = 0;
  for (int r = 0; r < ROUNDS; r++)
    for (int i = 0; s[i]; i++)
      n = (n + s[i]) % 1000;
  return n % 100;
}
