#include <stdint.h>
#include <stdio.h>
#include <string.h>

int main(void) {
  static union { uint32_t first; char bytes[8]; } packet = {1};
  uint32_t value;
  memcpy(&value, packet.bytes + 1, sizeof value);
  printf("%u\n", value);
  printf("%u\n", *(uint32_t *)(packet.bytes + 1));
  return 0;
}
