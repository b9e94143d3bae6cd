/* The same without a union is an access at the wrong type (6.5p7). */
#include <stdint.h>
#include <stdio.h>
#include <string.h>

int main(void) {
  uint32_t number = 0x01020304;
  uint16_t half;
  memcpy(&half, &number, sizeof half);
  printf("%x %x\n", half, *(unsigned char *)&number);
  printf("%x\n", *(uint16_t *)&number);
  return 0;
}
