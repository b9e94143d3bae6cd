/* Another member of a declared union than the one that was stored may be read (6.5.2.3p3). */
#include <stdint.h>
#include <stdio.h>

union word {
  uint32_t number;
  uint16_t halves[2];
  unsigned char bytes[4];
};

int main(void) {
  union word word = {0x01020304};
  printf("%d%d%d%d %x\n", word.bytes[0], word.bytes[1], word.bytes[2], word.bytes[3], word.halves[1]);
  word.bytes[3] = 0xff;
  printf("%x\n", word.number);
  puts(word.bytes[0] == 4 ? "little" : "big");
  return 0;
}
