/* `strlen`, `strcmp` of short words: 2000 rounds */
unsigned long strlen(const char *);
int strcmp(const char *, const char *);
char a[16] = "hello, world", b[16] = "hello, there";

int main(void) {
  int s = 0;
  for (int r = 0; r < ROUNDS; r++)
    s = (s + (int)strlen(a) + strcmp(a, b)) % 1000;
  return s == 0;
}
