#include <stdint.h>
#include <stdio.h>

static uint32_t turned(uint32_t word, int by) {
  return word << by | word >> (32 - by);
}

int main(void) {
  printf("%x\n", turned(0x12345678u, 4));
  printf("%x\n", turned(0x12345678u, 0));
  return 0;
}
