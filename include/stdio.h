/*
 * <stdio.h>, C17 7.21: writing to the output, and reading from standard input.
 *
 * printf is the language's own: its format is a string literal of %d %u %x %c %s %p %ld %lu %lx %%, without flags,
 * width, precision and other lengths (docs/LANGUAGE.md). Defined here in C are puts, putchar, fputs, fputc, putc,
 * fwrite, fflush, setbuf and setvbuf; fprintf is a macro alone, since a function that takes `...` can't be written.
 * stdout and stderr are one output, in the order of the calls; the launcher tells them apart (<pv_error.h>). Through a
 * pointer that is no stream, a null pointer say (7.1.4p1), a character is read, so that it is reported where it points
 * to no object that lives.
 *
 * A program that names them has perror (<pv_messages.h>) and what reads from stdin (<pv_input.h>).
 *
 * Left out: files, texts that are written to memory (sprintf, snprintf) or read there (sscanf), and lists of arguments
 * (vprintf and its like).
 *
 * Brings three string literals, which come before the program's own (`@lit` of a script of addresses).
 */
#ifndef __STDIO_H
#define __STDIO_H

#define __needs_size
#define __needs_stream
#include <pv_types.h>

#define NULL ((void *)0)
#define EOF (-1)
#define BUFSIZ 8192
#define _IOFBF 0
#define _IOLBF 1
#define _IONBF 2

/* Addresses where no object ever lies: a stream has no storage. By these names tools/preprocess knows what is used. */
enum { __error_stream = 32, __input_stream = 48 };
#define stdout ((FILE *)16)
#define stderr ((FILE *)__error_stream)
#define stdin ((FILE *)__input_stream)

int printf(const char *, ...);

static void __must_be_stream(FILE *__stream) {
  if (__stream != (FILE *)16 && __stream != (FILE *)32) {
    char __none = *(char *)__stream;
  }
}

static int puts(const char *__text) {
  printf("%s\n", __text);
  return 0;
}

static int putchar(int __character) {
  printf("%c", __character);
  return (unsigned char)__character;
}

#ifdef __PV_WANTS_ERROR
#include <pv_error.h>
#define __put(character, stream) fputc(character, stream)
#else
#define fprintf(stream, ...) (__must_be_stream(stream), printf(__VA_ARGS__))
#define __put(character, stream) putchar(character)

static int fputs(const char *__text, FILE *__stream) {
  __must_be_stream(__stream);
  printf("%s", __text);
  return 0;
}

static int fputc(int __character, FILE *__stream) {
  __must_be_stream(__stream);
  return putchar(__character);
}
#endif

static int putc(int __character, FILE *__stream) {
  return fputc(__character, __stream);
}

static size_t fwrite(const void *__objects, size_t __size, size_t __count, FILE *__stream) {
  const unsigned char *__bytes = __objects;
  __must_be_stream(__stream);
  for (size_t __at = 0; __at < __size * __count; __at++)
    __put(__bytes[__at], __stream);
  return __size ? __count : 0;
}

/* A null pointer means all streams (7.21.5.2p3). What is printed waits nowhere. */
static int fflush(FILE *__stream) {
  if (__stream)
    __must_be_stream(__stream);
  return 0;
}

/* No stream has a buffer: one that is given may be used, and isn't (7.21.5.6p2). */
static int setvbuf(FILE *__stream, char *__buffer, int __mode, size_t __size) {
  if (__stream != (FILE *)48)
    __must_be_stream(__stream);
  return __mode < _IOFBF || __mode > _IONBF;
}

static void setbuf(FILE *__stream, char *__buffer) {
  setvbuf(__stream, __buffer, __buffer ? _IOFBF : _IONBF, BUFSIZ);
}

#ifdef __pv_lower
int sprintf(char *, const char *, ...);
int snprintf(char *, size_t, const char *, ...);
int vprintf(const char *, __builtin_va_list);
int vsprintf(char *, const char *, __builtin_va_list);
int vsnprintf(char *, size_t, const char *, __builtin_va_list);
#ifndef __PV_WANTS_ERROR
#define vfprintf(stream, format, list) (__must_be_stream(stream), vprintf(format, list))
#endif
#endif

#ifdef __PV_WANTS_PERROR
#include <pv_messages.h>

static int __errno;

/* 7.21.10.4p2 */
static void perror(const char *__text) {
  if (__text && *__text) {
    fputs(__text, (FILE *)32);
    fputs(": ", (FILE *)32);
  }
  fputs(__message_of(__errno), (FILE *)32);
  fputc('\n', (FILE *)32);
}
#endif

#ifdef __PV_WANTS_INPUT
#include <pv_input.h>
#endif

#endif
