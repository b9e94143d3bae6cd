/*
 * <stdlib.h>, C17 7.22.
 *
 * malloc, calloc, realloc, free, exit and abort are the language's own. Defined here in C are the numbers of texts
 * (7.22.1.2 to 7.22.1.4), rand and srand (as the example of 7.22.2.2p5 has them), aligned_alloc, _Exit, quick_exit,
 * getenv, which finds nothing, abs and div with their like (7.22.6). What is undefined in them is reported at the
 * line here that does it: abs(INT_MIN) by its minus (6.5p5), a number that atoi can't hold by a product, a sum or the
 * minus of it (7.22.1p1), div by 0 by its division (6.5.5p5).
 *
 * qsort is a heap sort, which keeps one element aside in an allocation of its own: what is copied there and back keeps
 * its bytes without a value, its provenance and its effective type. bsearch halves (7.22.5).
 *
 * Left out: atof and strtod with their like (there is no floating type); atexit, at_quick_exit; system; multibyte
 * characters (7.22.7, 7.22.8).
 *
 * Brings three static objects: errno, the bases that strtol knows, and the seed of rand.
 */
#ifndef __STDLIB_H
#define __STDLIB_H

#define __needs_size
#define __needs_wide
#define __needs_quotients
#include <pv_types.h>
#include <pv_number.h>

#define NULL ((void *)0)
#define EXIT_SUCCESS 0
#define EXIT_FAILURE 1
#define RAND_MAX 32767
#define MB_CUR_MAX 1

void *malloc(size_t);
void *calloc(size_t, size_t);
void *realloc(void *, size_t);
void free(void *);
void exit(int);
void abort(void);
void *memcpy(void *, const void *, size_t);

/* Every allocation is aligned to 16; a stricter alignment is one that fails (7.22.3.1p2). */
static void *aligned_alloc(size_t __alignment, size_t __size) {
  _Bool __is_power = __alignment != 0 && (__alignment & (__alignment - 1)) == 0;
  return __is_power && __alignment <= 16 ? malloc(__size) : NULL;
}

/* Nothing is registered that an end of the program would call. */
static void _Exit(int __status) {
  exit(__status);
}

static void quick_exit(int __status) {
  exit(__status);
}

/* There is no environment, but a name is read. */
static char *getenv(const char *__name) {
  while (*__name)
    __name++;
  return NULL;
}

/* Digits are counted below zero, where there is one number more. */
static int atoi(const char *__text) {
  int __number = 0;
  const char *__at = __behind_space(__text);
  _Bool __is_negative = *__at == '-';
  for (__at += __is_negative || *__at == '+'; __digit(*__at) < 10; __at++)
    __number = __number * 10 - __digit(*__at);
  return __is_negative ? __number : -__number;
}

static long atol(const char *__text) {
  long __number = 0;
  const char *__at = __behind_space(__text);
  _Bool __is_negative = *__at == '-';
  for (__at += __is_negative || *__at == '+'; __digit(*__at) < 10; __at++)
    __number = __number * 10 - __digit(*__at);
  return __is_negative ? __number : -__number;
}

static long long atoll(const char *__text) {
  return atol(__text);
}

static long strtol(const char *__text, char **__end, int __base) {
  return __signed_number(__text, __end, __base);
}

static long long strtoll(const char *__text, char **__end, int __base) {
  return __signed_number(__text, __end, __base);
}

static unsigned long strtoul(const char *__text, char **__end, int __base) {
  return __unsigned_number(__text, __end, __base);
}

static unsigned long long strtoull(const char *__text, char **__end, int __base) {
  return __unsigned_number(__text, __end, __base);
}

static unsigned long __seed = 1;

static void srand(unsigned __wanted) {
  __seed = __wanted;
}

static int rand(void) {
  __seed = __seed * 1103515245 + 12345;
  return (int)(__seed / 65536 % 32768);
}

static void *bsearch(const void *__key, const void *__base, size_t __count, size_t __size,
                     int (*__compare)(const void *, const void *)) {
  const char *__low = __base;
  while (__count > 0) {
    const char *__middle = __low + __count / 2 * __size;
    int __order = __compare(__key, __middle);
    if (__order == 0)
      return (void *)__middle;
    if (__order > 0) {
      __low = __middle + __size;
      __count -= __count / 2 + 1;
    } else {
      __count /= 2;
    }
  }
  return NULL;
}

static void __swap(char *__left, char *__right, char *__aside, size_t __size) {
  memcpy(__aside, __left, __size);
  memcpy(__left, __right, __size);
  memcpy(__right, __aside, __size);
}

/* The element at __at sinks in the heap of the first __count elements until none below it is greater. */
static void __sink(char *__base, size_t __at, size_t __count, size_t __size, char *__aside,
                   int (*__compare)(const void *, const void *)) {
  for (size_t __below = 2 * __at + 1; __below < __count; __below = 2 * __at + 1) {
    if (__below + 1 < __count && __compare(__base + __below * __size, __base + (__below + 1) * __size) < 0)
      __below++;
    if (__compare(__base + __at * __size, __base + __below * __size) >= 0)
      return;
    __swap(__base + __at * __size, __base + __below * __size, __aside, __size);
    __at = __below;
  }
}

/* An element is put aside in an allocation, since a copy within an object of characters would make characters of what it is copied to
   (C17 6.5p6). Where there is no memory for one, the program is aborted. */
static void qsort(void *__base, size_t __count, size_t __size, int (*__compare)(const void *, const void *)) {
  if (__count < 2)
    return;
  char *__elements = __base;
  char *__aside = malloc(__size);
  if (!__aside)
    abort();
  for (size_t __at = __count / 2; __at > 0; __at--)
    __sink(__elements, __at - 1, __count, __size, __aside, __compare);
  for (size_t __last = __count - 1; __last > 0; __last--) {
    __swap(__elements, __elements + __last * __size, __aside, __size);
    __sink(__elements, 0, __last, __size, __aside, __compare);
  }
  free(__aside);
}

static int abs(int __number) {
  return __number < 0 ? -__number : __number;
}

static long labs(long __number) {
  return __number < 0 ? -__number : __number;
}

static long long llabs(long long __number) {
  return __number < 0 ? -__number : __number;
}

static div_t div(int __number, int __divisor) {
  div_t __quotient = {__number / __divisor, __number % __divisor};
  return __quotient;
}

static ldiv_t ldiv(long __number, long __divisor) {
  ldiv_t __quotient = {__number / __divisor, __number % __divisor};
  return __quotient;
}

static lldiv_t lldiv(long long __number, long long __divisor) {
  lldiv_t __quotient = {__number / __divisor, __number % __divisor};
  return __quotient;
}

#endif
