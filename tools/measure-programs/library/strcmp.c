/* `strcmp`: 2 rounds of 65536 bytes */
void *memset(void *, int, unsigned long);
int strcmp(const char *, const char *);
char a[65537], b[65537];

int main(void) {
  memset(a, 65, 65536ul);
  memset(b, 65, 65536ul);
  int s = 0;
  for (int r = 0; r < ROUNDS; r++)
    s += strcmp(a, b) != 0;
  return s != 0;
}
