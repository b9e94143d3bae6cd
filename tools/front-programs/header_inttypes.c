#include <inttypes.h>
#include <stdio.h>

int main(void) {
  int8_t small = -8;
  uint16_t half = 65535;
  int32_t number = INT32_MIN;
  uint64_t wide = UINT64_MAX;
  char *end;

  printf("%" PRId8 " %" PRIu16 " %" PRIi32 " %" PRIx64 "\n", small, half, number, wide);
  printf("%" PRIdMAX " %" PRIuPTR " %" PRIxLEAST16 " %" PRIdFAST8 "\n", INTMAX_MIN, UINTPTR_MAX, half, small);
  printf("%" PRIdMAX " %" PRIdMAX "\n", imaxabs(-7), imaxdiv(-7, 2).rem);
  printf("%" PRIdMAX "\n", strtoimax(" -0x1F rest", &end, 0));
  printf("%s\n", end);
  printf("%" PRIuMAX "\n", strtoumax("7778", &end, 8));
  printf("%s\n", end);
  return 0;
}
