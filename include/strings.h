/*
 * <strings.h>, which is POSIX's and not C17's: comparing without regard to case, the old names of memcmp, memmove,
 * memset, strchr and strrchr, and ffs.
 *
 * Brings the static objects of <ctype.h> and <string.h>.
 */
#ifndef __STRINGS_H
#define __STRINGS_H

#include <ctype.h>
#include <string.h>

static int strncasecmp(const char *__left, const char *__right, size_t __size) {
  size_t __at = 0;
  int __low = 0, __high = 0;
  while (__at < __size && __low == __high && (__at == 0 || __low)) {
    __low = tolower((unsigned char)__left[__at]);
    __high = tolower((unsigned char)__right[__at]);
    __at++;
  }
  return __low - __high;
}

static int strcasecmp(const char *__left, const char *__right) {
  return strncasecmp(__left, __right, 18446744073709551615ul);
}

static char *index(const char *__text, int __sought) {
  return strchr(__text, __sought);
}

static char *rindex(const char *__text, int __sought) {
  return strrchr(__text, __sought);
}

static int bcmp(const void *__left, const void *__right, size_t __size) {
  return memcmp(__left, __right, __size);
}

static void bcopy(const void *__source, void *__target, size_t __size) {
  memmove(__target, __source, __size);
}

static void bzero(void *__target, size_t __size) {
  memset(__target, 0, __size);
}

/* The place of the lowest bit that is set, counted from 1, or 0. */
static int ffs(int __number) {
  unsigned __bits = (unsigned)__number;
  int __place = 1;
  if (!__bits)
    return 0;
  for (; !(__bits & 1); __bits >>= 1)
    __place++;
  return __place;
}

#endif
