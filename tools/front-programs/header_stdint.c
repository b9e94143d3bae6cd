#include <stdint.h>
#include <stdio.h>

#if INT32_MAX != 2147483647 || UINT64_MAX != 18446744073709551615u || INTMAX_C(-5) / 2 != -2
#error limits stand in conditions too (7.20.2)
#endif

int main(void) {
  int8_t small = INT8_MIN;
  uint8_t byte = UINT8_MAX;
  int16_t half = INT16_MIN;
  uint32_t word = UINT32_MAX;
  int64_t wide = INT64_MIN;
  uintptr_t place = (uintptr_t)&byte;

  byte++;
  word += 2;
  printf("%d %d %d %u %ld\n", small, byte, half, word, wide);
  printf("%d\n", *(uint8_t *)place);
  printf("%lu %lu %lu %lu\n", sizeof(int_least16_t), sizeof(uint_fast8_t), sizeof(intmax_t), sizeof(intptr_t));
  printf("%ld %u %lu\n", INT64_C(1) << 40, UINT32_C(1) << 31, SIZE_MAX);
  printf("%d %d\n", INT_FAST16_MAX >= INT16_MAX, PTRDIFF_MIN < 0);
  return 0;
}
