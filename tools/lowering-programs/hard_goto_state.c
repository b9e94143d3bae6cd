//! uses goto
//! defined
#include <stdio.h>
static int parse(const char *s) {
  int sign = 1, n = 0; const char *start = s;
  if (*s == '-') { sign = -1; s++; goto digits; }
  if (*s == '+') goto plus;
digits:
  for (; *s; s++) { if (*s == '_') goto skip; if (*s < '0' || *s > '9') goto bad; n = n * 10 + *s - '0'; continue; skip: ; }
  return sign * n;
plus:
  s++;
  goto digits;
bad:
  printf("bad %c at %d\n", *s, (int)(s - start));
  return -1;
}
int main(void) { printf("%d %d %d %d\n", parse("12_3"), parse("-45"), parse("+6"), parse("7x")); return 0; }
