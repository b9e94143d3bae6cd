//! uses formats of printf
//! uses formats of puts
//! defined
int printf(const char *, ...);
int puts(const char *);
static int depth(int n) { return n ? depth(n - 1) + printf("%*d\n", n, n) : 0; }
static int (*out)(const char *, int);
static int twice(const char *s, int n) { return printf("%-4s%04d\n", s, n), 2 * n; }
int main(void) {
  puts("first"); out = twice;
  if (puts("second") < 0) return 1;
  return depth(4) + out("x", out("y", 3)) + (puts(puts("third") >= 0 ? "yes" : "no") >= 0);
}
