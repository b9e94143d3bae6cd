/*
 * What csmith's programs include, for programs without floating-point numbers: csmith's own header holds words that
 * the language leaves out. docs/RECIPES.md says how it is used.
 *
 * Sums, products and negatives are those of unsigned numbers, brought back to their type. Where C17 leaves a division
 * by zero or a shift undefined, it is the left operand.
 */
#include <limits.h>
#include <stdint.h>
#include <stdio.h>

#define WIDTH(type) ((int)sizeof(type) * CHAR_BIT)
#define IS_MINUS_ONE(type, a) ((type)-1 < 0 && a == (type)-1)

/* The operations of a type; `kind` is s or u, as csmith names them. */
#define SAFE(type, kind) \
  static type safe_unary_minus_func_##type##_##kind(type a) { return (type)-(uint64_t)a; } \
  static type safe_add_func_##type##_##kind##_##kind(type a, type b) { return (type)((uint64_t)a + (uint64_t)b); } \
  static type safe_sub_func_##type##_##kind##_##kind(type a, type b) { return (type)((uint64_t)a - (uint64_t)b); } \
  static type safe_mul_func_##type##_##kind##_##kind(type a, type b) { return (type)((uint64_t)a * (uint64_t)b); } \
  static type safe_div_func_##type##_##kind##_##kind(type a, type b) { \
    return b == 0 ? a : IS_MINUS_ONE(type, b) ? (type)-(uint64_t)a : a / b; \
  } \
  static type safe_mod_func_##type##_##kind##_##kind(type a, type b) { \
    return b == 0 ? a : IS_MINUS_ONE(type, b) ? 0 : a % b; \
  } \
  static type safe_lshift_func_##type##_##kind##_s(type a, int b) { \
    return b < 0 || b >= WIDTH(type) ? a : (type)((uint64_t)a << b); \
  } \
  static type safe_lshift_func_##type##_##kind##_u(type a, unsigned b) { \
    return b >= WIDTH(type) ? a : (type)((uint64_t)a << b); \
  } \
  static type safe_rshift_func_##type##_##kind##_s(type a, int b) { \
    return b < 0 || b >= WIDTH(type) ? a : a >> b; \
  } \
  static type safe_rshift_func_##type##_##kind##_u(type a, unsigned b) { return b >= WIDTH(type) ? a : a >> b; }

SAFE(int8_t, s)
SAFE(int16_t, s)
SAFE(int32_t, s)
SAFE(int64_t, s)
SAFE(uint8_t, u)
SAFE(uint16_t, u)
SAFE(uint32_t, u)
SAFE(uint64_t, u)

static uint32_t crc32_context = UINT32_MAX;
static uint32_t crc32_table[256];

static void crc32_gentab(void) {
  for (uint32_t i = 0; i < 256; i++) {
    uint32_t rest = i;
    for (int bit = 0; bit < 8; bit++)
      rest = rest >> 1 ^ (0xedb88320 & -(rest & 1));
    crc32_table[i] = rest;
  }
}

static void crc32_byte(uint8_t byte) {
  crc32_context = crc32_context >> 8 ^ crc32_table[(crc32_context ^ byte) & 255];
}

static void transparent_crc(uint64_t value, const char *name, int is_shown) {
  for (int shift = 0; shift < 64; shift += 8)
    crc32_byte((uint8_t)(value >> shift));
  if (is_shown)
    printf("...checksum after hashing %s : %x\n", name, ~crc32_context);
}

static void transparent_crc_bytes(const char *bytes, int count, const char *name, int is_shown) {
  for (int i = 0; i < count; i++)
    crc32_byte((uint8_t)bytes[i]);
  if (is_shown)
    printf("...checksum after hashing %s : %x\n", name, ~crc32_context);
}

static void platform_main_begin(void) {}

static void platform_main_end(uint32_t checksum, int is_shown) {
  printf("checksum = %x\n", checksum);
}
