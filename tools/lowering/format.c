int printf(const char *, ...);
void abort(void);
void *memcpy(void *, const void *, unsigned long);
enum { left = 1, plus = 2, blank = 4, other = 8, zeros = 16 };
static const char blanks[] = BLANKS;
static int too_long(void) {
  printf("\n[--lower: more than 4095 characters of one conversion (7.21.6.1p15)]\n");
  abort();
  return 0;
}
static const char *pad(int width, unsigned long length, int is_after) {
  unsigned long wide = width < 0 ? -width : width;
  return blanks + (sizeof blanks - 1) - (is_after == (width < 0) && wide > length ? wide - length : 0);
}
static char *number(char *at, unsigned long value, int letter, int flags, int width, int precision) {
  char *end = at;
  int base = letter == 'o' ? 8 : letter == 'x' || letter == 'X' ? 16 : 10, ten = letter == 'X' ? 'A' : 'a';
  int prefixed = base == 16 && flags & other && value, sign = 0, least = precision < 0 ? 1 : precision;
  if (letter == 'd') {
    sign = (long)value < 0 ? '-' : flags & plus ? '+' : flags & blank ? ' ' : 0;
    value = (long)value < 0 ? -value : value;
  }
  if (flags & zeros && precision < 0 && width - (sign != 0) - 2 * prefixed > 1)
    least = width - (sign != 0) - 2 * prefixed;
  for (*at = 0; value; value /= base) {
    int digit = value % base;
    *--at = digit < 10 ? '0' + digit : ten + digit - 10;
  }
  while (end - at < least)
    *--at = '0';
  if (base == 8 && flags & other && *at != '0')
    *--at = '0';
  if (prefixed) {
    *--at = letter;
    *--at = '0';
  }
  if (sign)
    *--at = sign;
  return at;
}
