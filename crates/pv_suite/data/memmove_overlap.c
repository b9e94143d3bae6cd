/* memmove copies as if by way of another array (C17 7.24.2.2p2). */
void *memmove(void *, const void *, unsigned long);
int printf(const char *, ...);
char line[8] = "abcdefg";

int main(void) {
  memmove(line + 1, line, 6);
  printf("%s\n", line);
  return 0;
}
