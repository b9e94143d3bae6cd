/* `strlen`: 2 rounds of 65536 bytes */
void *memset(void *, int, unsigned long);
unsigned long strlen(const char *);
char a[65537], b[65537];

int main(void) {
  memset(a, 65, 65536ul);
  memset(b, 65, 65536ul);
  int s = 0;
  for (int r = 0; r < ROUNDS; r++)
    s += strlen(a) != 65536ul;
  return s != 0;
}
