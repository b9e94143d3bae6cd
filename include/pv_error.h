/*
 * What <stdio.h> does for the stream stderr. A program carries it only where it names stderr or perror, and never
 * includes this header.
 *
 * There is one output. Each piece of it that goes to a stream by name stands between two marks, ESC _ H S ESC \ each:
 * S is the stream whose piece begins there, 2 for stderr and 1 for stdout, and H sixteen hexadecimal digits of a
 * hash of the whole text, so that no program prints a mark of its own that wasn't written round that hash: for the name
 * __pv_mark tools/preprocess puts the literal in. The launcher takes the marks out again (tools/streams.awk). Where
 * nobody asks for marks they are empty, and both streams' text stands in the output, in the order of the calls.
 * A piece is printed with its marks by one call, so marks are never parted from it by a fault, or by another piece.
 *
 * Brings four string literals.
 */
#ifndef __PV_ERROR_H
#define __PV_ERROR_H

#ifdef __PV_MARKS
#define __error_begins __pv_mark "2\033\\"
#define __error_ends __pv_mark "1\033\\"
#define __length_of_marks 42
#else
#define __error_begins ""
#define __error_ends ""
#define __length_of_marks 0
#endif

/* The letter of a stream in a mark. */
static int __letter(FILE *__stream) {
  __must_be_stream(__stream);
  return __stream == (FILE *)32 ? '2' : '1';
}

/* How many characters a call printed, without those of its marks. */
static int __without_marks(int __printed) {
  return __printed < 0 ? __printed : __printed - __length_of_marks;
}

/*
 * The stream is looked at before the other arguments. Behind these stands one argument more, which no conversion takes
 * (7.21.6.1p2), so that there is always one. Both forms take the same turns.
 */
#define fprintf(stream, ...) __print_to(stream, __VA_ARGS__, 0)
#ifdef __PV_MARKS
#define __print_to(stream, format, ...) \
  __without_marks(printf(__pv_mark "%c\033\\" format __error_ends, +__letter(stream), __VA_ARGS__))
#else
#define __print_to(stream, format, ...) __without_marks((__letter(stream), printf(format, __VA_ARGS__)))
#endif

static int fputs(const char *__text, FILE *__stream) {
  if (__letter(__stream) == '2')
    printf(__error_begins "%s" __error_ends, __text);
  else
    printf("%s", __text);
  return 0;
}

static int fputc(int __character, FILE *__stream) {
  if (__letter(__stream) == '2')
    printf(__error_begins "%c" __error_ends, __character);
  else
    printf("%c", __character);
  return (unsigned char)__character;
}

#ifdef __pv_lower
/* The marks round what a list of arguments comes to are printed by calls of their own, of which the second is made last. */
static int __begins(FILE *__stream) {
  int __stream_is = __letter(__stream);
  if (__stream_is == '2')
    printf(__error_begins);
  return __stream_is;
}

static int __ends(int __stream_is, int __printed) {
  if (__stream_is == '2')
    printf(__error_ends);
  return __printed;
}

#define vfprintf(stream, format, list) __ends(__begins(stream), vprintf(format, list))
#endif

#endif
