/*
 * What a text says as a number: the functions of 7.22.1.4 (<stdlib.h>) and 7.8.2.3 (<inttypes.h>) share it. A
 * program includes one of these, and never this header.
 */
#ifndef __PV_NUMBER_H
#define __PV_NUMBER_H

/* <errno.h> declares it too: it is one object. */
static int __errno;
#define __out_of_range 34

/* A value that unsigned long hasn't is told as its greatest, and as one above it. */
struct __number {
  unsigned long __value;
  _Bool __is_negative, __is_above;
  const char *__end;
};

static const char *__behind_space(const char *__text) {
  while (*__text == ' ' || (*__text >= '\t' && *__text <= '\r'))
    __text++;
  return __text;
}

/* The value of a digit or letter, and 36 for any other character. */
static int __digit(char __character) {
  if (__character >= '0' && __character <= '9')
    return __character - '0';
  if (__character >= 'a' && __character <= 'z')
    return __character - 'a' + 10;
  return __character >= 'A' && __character <= 'Z' ? __character - 'A' + 10 : 36;
}

static _Bool __has_prefix(const char *__text) {
  return __text[0] == '0' && (__text[1] == 'x' || __text[1] == 'X') && __digit(__text[2]) < 16;
}

/* Another base than 0 and 2 to 36 is invalid (7.1.4p1): it is reported as reading outside of these bytes. */
static int __base_of(const char *__digits, int __wanted) {
  static const char __bases[35];
  if (__wanted == 0)
    return __has_prefix(__digits) ? 16 : *__digits == '0' ? 8 : 10;
  return __wanted + __bases[__wanted - 2];
}

/* The digits from here on. Where there are none, the number ends where it ended before: where its text begins. */
static struct __number __number_of(const char *__at, int __base, struct __number __number) {
  for (; __digit(*__at) < __base; __number.__end = ++__at) {
    int __digit_here = __digit(*__at);
    __number.__is_above = __number.__is_above
      || __number.__value > (18446744073709551615ul - __digit_here) / __base;
    __number.__value = __number.__is_above ? 18446744073709551615ul : __number.__value * __base + __digit_here;
  }
  return __number;
}

/* 7.22.1.4p2: blanks, a sign, a prefix, digits. */
static struct __number __read_number(const char *__text, int __wanted) {
  struct __number __number = {0, 0, 0, __text};
  const char *__at = __behind_space(__text);
  __number.__is_negative = *__at == '-';
  if (*__at == '-' || *__at == '+')
    __at++;
  __wanted = __base_of(__at, __wanted);
  if (__wanted == 16 && __has_prefix(__at))
    __at += 2;
  return __number_of(__at, __wanted, __number);
}

static long __signed_number(const char *__text, char **__end, int __base) {
  struct __number __number = __read_number(__text, __base);
  unsigned long __most = 9223372036854775807ul + __number.__is_negative;
  if (__end)
    *__end = (char *)__number.__end;
  if (__number.__value > __most) {
    __errno = __out_of_range;
    __number.__value = __most;
  }
  return __number.__is_negative ? (long)-__number.__value : (long)__number.__value;
}

static unsigned long __unsigned_number(const char *__text, char **__end, int __base) {
  struct __number __number = __read_number(__text, __base);
  if (__end)
    *__end = (char *)__number.__end;
  if (__number.__is_above) {
    __errno = __out_of_range;
    return 18446744073709551615ul;
  }
  return __number.__is_negative ? -__number.__value : __number.__value;
}

#endif
