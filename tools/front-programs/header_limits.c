#include <limits.h>
#include <stdio.h>

#if CHAR_BIT != 8 || LONG_MAX <= INT_MAX || CHAR_MIN >= 0
#error limits stand in conditions too (5.2.4.2.1)
#endif

int main(void) {
  printf("%d %d %d %d %d\n", CHAR_BIT, SCHAR_MIN, SCHAR_MAX, UCHAR_MAX, MB_LEN_MAX >= 1);
  printf("%d %d %d %d %d\n", CHAR_MIN, CHAR_MAX, SHRT_MIN, SHRT_MAX, USHRT_MAX);
  printf("%d %d %u\n", INT_MIN, INT_MAX, UINT_MAX);
  printf("%ld %ld %lu\n", LONG_MIN, LONG_MAX, ULONG_MAX);
  return !(LLONG_MIN == LONG_MIN && LLONG_MAX == LONG_MAX && ULLONG_MAX == ULONG_MAX);
}
