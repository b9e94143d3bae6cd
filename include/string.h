/*
 * <string.h>, C17 7.24: all of it; strerror where a program names it (<pv_messages.h>).
 *
 * memcpy, memmove, memset, memcmp, strlen, strcmp and strcpy are the language's own. The others are defined here
 * in C, and what is undefined in them is reported at the line here that does it: strcat over the end of its target
 * by the strcpy within it (7.24.1p2), strncpy and strncat of objects that overlap by their memcpy (7.24.2.1p2).
 * strcoll and strxfrm know the "C" locale alone.
 *
 * Brings one static object, of strtok.
 */
#ifndef __STRING_H
#define __STRING_H

#define __needs_size
#include <pv_types.h>

#define NULL ((void *)0)

void *memcpy(void *, const void *, size_t);
void *memmove(void *, const void *, size_t);
void *memset(void *, int, size_t);
int memcmp(const void *, const void *, size_t);
size_t strlen(const char *);
int strcmp(const char *, const char *);
char *strcpy(char *, const char *);

/* The characters before the zero of a text of which no more than some are read. */
static size_t __length_within(const char *__text, size_t __most) {
  size_t __length = 0;
  while (__length < __most && __text[__length])
    __length++;
  return __length;
}

static char *strncpy(char *__target, const char *__source, size_t __size) {
  size_t __length = __length_within(__source, __size);
  size_t __copied = __length < __size ? __length + 1 : __size;
  memcpy(__target, __source, __copied);
  memset(__target + __copied, 0, __size - __copied);
  return __target;
}

static char *strcat(char *__target, const char *__source) {
  strcpy(__target + strlen(__target), __source);
  return __target;
}

static char *strncat(char *__target, const char *__source, size_t __size) {
  char *__end = __target + strlen(__target);
  size_t __length = __length_within(__source, __size);
  memcpy(__end, __source, __length < __size ? __length + 1 : __size);
  __end[__length] = 0;
  return __target;
}

/* The first line of the next two looks at the pointers, which must be valid for no character too (7.24.1p2). */
static int strncmp(const char *__left, const char *__right, size_t __size) {
  size_t __at = memcmp(__left, __right, 0);
  while (__at < __size && __left[__at] == __right[__at] && __left[__at])
    __at++;
  return __at == __size ? 0 : (unsigned char)__left[__at] - (unsigned char)__right[__at];
}

static void *memchr(const void *__object, int __sought, size_t __size) {
  const unsigned char *__bytes = __object;
  size_t __at = memcmp(__object, __object, 0);
  while (__at < __size && __bytes[__at] != (unsigned char)__sought)
    __at++;
  return __at == __size ? NULL : (void *)(__bytes + __at);
}

static int strcoll(const char *__left, const char *__right) {
  return strcmp(__left, __right);
}

static size_t strxfrm(char *__target, const char *__source, size_t __size) {
  size_t __length = strlen(__source);
  if (__length < __size)
    strcpy(__target, __source);
  return __length;
}

static char *strchr(const char *__text, int __sought) {
  while (*__text && *__text != (char)__sought)
    __text++;
  return *__text == (char)__sought ? (char *)__text : NULL;
}

static char *strrchr(const char *__text, int __sought) {
  const char *__at = __text + strlen(__text);
  while (__at != __text && *__at != (char)__sought)
    __at--;
  return *__at == (char)__sought ? (char *)__at : NULL;
}

static size_t strspn(const char *__text, const char *__set) {
  size_t __length = 0;
  while (__text[__length] && strchr(__set, __text[__length]))
    __length++;
  return __length;
}

static size_t strcspn(const char *__text, const char *__set) {
  size_t __length = 0;
  while (!strchr(__set, __text[__length]))
    __length++;
  return __length;
}

static char *strpbrk(const char *__text, const char *__set) {
  __text += strcspn(__text, __set);
  return *__text ? (char *)__text : NULL;
}

static char *strstr(const char *__text, const char *__sought) {
  size_t __length = strlen(__sought);
  while (*__text && strncmp(__text, __sought, __length) != 0)
    __text++;
  return *__text || !__length ? (char *)__text : NULL;
}

static char *strtok(char *__text, const char *__set) {
  static char *__rest;
  if (__text)
    __rest = __text;
  __rest += strspn(__rest, __set);
  if (!*__rest)
    return NULL;
  __text = __rest;
  __rest += strcspn(__rest, __set);
  if (*__rest)
    *__rest++ = 0;
  return __text;
}

#ifdef __PV_WANTS_MESSAGES
#include <pv_messages.h>

static char *strerror(int __number) {
  return __message_of(__number);
}
#endif

#endif
