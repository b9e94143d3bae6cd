/* `printf("%d %s\n", r, "abc")`: 8000 rounds */
int printf(const char *, ...);

int main(void) {
  for (int r = 0; r < ROUNDS; r++)
    printf("%d %s\n", r, "abc");
  return 0;
}
