/* Counting, turning, reversing and hashing by bits. */
#include <stdint.h>
#include <stdio.h>

static unsigned ones(uint32_t word) {
  unsigned count = 0;
  for (; word; word &= word - 1)
    count++;
  return count;
}

static uint32_t turned(uint32_t word, unsigned by) {
  return word << (by & 31) | word >> (-by & 31);
}

static uint32_t reversed(uint32_t word) {
  word = (word & 0x55555555) << 1 | (word >> 1 & 0x55555555);
  word = (word & 0x33333333) << 2 | (word >> 2 & 0x33333333);
  word = (word & 0x0f0f0f0f) << 4 | (word >> 4 & 0x0f0f0f0f);
  return word << 24 | (word & 0xff00) << 8 | (word >> 8 & 0xff00) | word >> 24;
}

static uint32_t crc(const char *text) {
  uint32_t rest = UINT32_MAX;
  for (; *text; text++) {
    rest ^= (unsigned char)*text;
    for (int i = 0; i < 8; i++)
      rest = rest >> 1 ^ (0xedb88320 & -(rest & 1));
  }
  return ~rest;
}

int main(void) {
  printf("%u %x %x\n", ones(0xf0f1), turned(0x12345678, 8), turned(0x12345678, 0));
  printf("%x %x\n", reversed(1), reversed(0x12345678));
  printf("%x\n", crc("123456789"));
  return 0;
}
