/* The macros of the target: what is chosen by them is what memory shows. */
#include <limits.h>
#include <stddef.h>
#include <stdint.h>
#include <stdio.h>

#if __BYTE_ORDER__ == __ORDER_BIG_ENDIAN__
#define FIRST 1
#else
#define FIRST 2
#endif

int main(void) {
  short number = 258;
  __UINT64_TYPE__ wide = __UINT64_C(18446744073709551615);
  __SIZE_TYPE__ size = sizeof(__PTRDIFF_TYPE__);
  printf("%d %d\n", *(unsigned char *)&number == FIRST, __ORDER_LITTLE_ENDIAN__ == __BYTE_ORDER__);
  printf("%d %d %d\n", __CHAR_BIT__ == CHAR_BIT, __INT_MAX__ == INT_MAX, __LONG_MAX__ == LONG_MAX);
  printf("%d %d %d\n", __SIZEOF_POINTER__ == sizeof(char *), __SIZEOF_LONG__ == sizeof(long), __LP64__ + _LP64);
  printf("%lu %lu %d\n", wide, size, wide == UINT64_MAX);
#if defined __GNUC__ || defined __CHAR_UNSIGNED__ || defined __x86_64__ || defined __linux__
  printf("another machine\n");
#endif
#if __STDC_VERSION__ == 201710L && __STDC_HOSTED__ && __STDC_NO_THREADS__ && __STDC_NO_VLA__ && __STDC_NO_ATOMICS__
  printf("C17\n");
#endif
  return 0;
}
