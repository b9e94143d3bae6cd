//! uses formats of printf
//! defined
#include <stdio.h>
#include <stdint.h>
#include <inttypes.h>
static uint32_t crc(const unsigned char *p, size_t n) {
  uint32_t c = 0xffffffffu;
  while (n--) { c ^= *p++; for (int k = 0; k < 8; k++) c = c & 1 ? c >> 1 ^ 0xedb88320u : c >> 1; }
  return ~c;
}
static uint64_t fnv(const char *s) { uint64_t h = 14695981039346656037u; for (; *s; s++) h = (h ^ (unsigned char)*s) * 1099511628211u; return h; }
int main(void) {
  const char *text = "123456789";
  printf("%08" PRIx32 " %08X %o\n", crc((const unsigned char *)text, 9), 0xBEEFu, 8u);
  printf("%016llx %" PRIu64 "\n", (unsigned long long)fnv(text), fnv(""));
  for (int i = 0; i < 4; i++) printf("%02hhx%c", (unsigned char)(i * 85), i < 3 ? ' ' : '\n');
  return 0;
}
