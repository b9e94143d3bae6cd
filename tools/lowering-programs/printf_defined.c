//! uses formats of printf
//! defined
#include <stdio.h>
#include <stddef.h>
#include <stdint.h>
#include <limits.h>
enum colour { RED, GREEN };
int main(void) {
  int n = -42; unsigned u = 42; long l = -123456789012; unsigned long long ull = 18446744073709551615u; long long ll = LLONG_MIN;
  short h = -3; unsigned char c = 200; signed char s = -128; _Bool b = 1; enum colour g = GREEN;
  printf("%i|%zu|%lld|%hd|%hhu|%%|%jd|%td|%hhd|%hx\n", n, sizeof n, ll, h, c, (intmax_t)7, (ptrdiff_t)8, s, 65537);
  printf("%5d|%-5d|%05d|%+d|% d|%.5d|%8.3d|%-8.3d|%+08d|% 05i\n", n, n, n, 42, 42, n, n, n, 42, 42);
  printf("%5u|%x|%X|%#x|%#X|%o|%#o|%08x|%#010x|%.0u|%.0d|%#.0o|%#.3o|%#x|%#o\n", u, u, 0xabcu, u, 0xabcu, 8u, 8u, u, u, 0u, 0, 0u, 8u, 0u, 0u);
  printf("%20ld|%-20ld|%020ld|%lx|%llu|%#llx|%25lld|%-+25lld|\n", l, l, l, (unsigned long)5, ull, ull, ll, -(ll + 1));
  printf("%2d|%2d|%2d|%02hhx|%3hu|%d|%.10d|%.0d|\n", b, g, c, c, h == -3, INT_MIN, INT_MIN, 7);
  return printf("%5d\n", INT_MAX);
}
