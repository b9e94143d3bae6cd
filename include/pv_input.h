/*
 * What <stdio.h> does for the stream stdin. A program carries it only where it names stdin or a function that reads,
 * and never includes this header.
 *
 * Standard input is at its end, or holds the bytes of the launcher's --input, which tools/preprocess puts in the place
 * of the name __pv_input_bytes. Defined here are getchar, fgetc, getc, ungetc, fgets, fread, feof, ferror and clearerr.
 * scanf and fscanf are macros for a function with twelve places for values, since a function that takes `...` can't be
 * written: more arguments break a constraint. They have all conversions of 7.21.6.2p12 but those for floating types,
 * which there are none of.
 *
 * What is undefined is reported at the line here that does it: a store through an argument that isn't there, is null or
 * has another type; a number that its object hasn't (7.21.6.2p10), and a conversion that is none (7.21.6.2p13), by
 * reading outside of __valid.
 *
 * Brings five static objects: the input, what was read of it, one character that was pushed back, __valid and __nil.
 */
#ifndef __PV_INPUT_H
#define __PV_INPUT_H

#ifdef __PV_INPUT
static const unsigned char __input[] = __pv_input_bytes;
#else
static const unsigned char __input[1];
#endif
static struct { size_t __at, __taken; _Bool __is_over; } __reader;
static int __pushed = EOF;

static void __must_be_input(FILE *__stream) {
  if (__stream != (FILE *)48) {
    char __none = *(char *)__stream;
  }
}

/* The end is kept in mind until it is cleared (7.21.7.1p2). */
static int getchar(void) {
  int __character = __pushed;
  __pushed = EOF;
  if (__character != EOF)
    return __character;
  __reader.__is_over = __reader.__is_over || __reader.__at + 1 >= sizeof __input;
  return __reader.__is_over ? EOF : __input[__reader.__at++];
}

static int fgetc(FILE *__stream) {
  __must_be_input(__stream);
  return getchar();
}

static int getc(FILE *__stream) {
  return fgetc(__stream);
}

/* One character is kept: a second one in a row fails (7.21.7.10p3). */
static int ungetc(int __character, FILE *__stream) {
  __must_be_input(__stream);
  if (__character == EOF || __pushed != EOF)
    return EOF;
  __reader.__is_over = 0;
  __pushed = (unsigned char)__character;
  return __pushed;
}

/* 7.21.7.2: nothing is stored where the end comes before any character. */
static char *fgets(char *__target, int __size, FILE *__stream) {
  int __length = 0, __character = 0;
  __must_be_input(__stream);
  while (__length + 1 < __size && __character != '\n' && (__character = getchar()) != EOF)
    __target[__length++] = (char)__character;
  if (__length == 0 && __character == EOF)
    return NULL;
  if (__size > 0)
    __target[__length] = 0;
  return __target;
}

static size_t fread(void *__objects, size_t __size, size_t __count, FILE *__stream) {
  unsigned char *__bytes = __objects;
  size_t __length = 0;
  int __character;
  __must_be_input(__stream);
  while (__length < __size * __count && (__character = getchar()) != EOF)
    __bytes[__length++] = (unsigned char)__character;
  return __size ? __length / __size : 0;
}

static int feof(FILE *__stream) {
  if (__stream != (FILE *)48)
    __must_be_stream(__stream);
  return __stream == (FILE *)48 && __reader.__is_over;
}

static int ferror(FILE *__stream) {
  if (__stream != (FILE *)48)
    __must_be_stream(__stream);
  return 0;
}

static void clearerr(FILE *__stream) {
  if (__stream != (FILE *)48)
    __must_be_stream(__stream);
  else
    __reader.__is_over = 0;
}

/* ---- scanf */

/* What a conversion asks for: * before it (no value is stored), a width (0 is none), the size of its object. */
struct __conversion {
  _Bool __is_dropped, __is_long_long;
  size_t __width, __bytes;
  char __kind;
};

/* What a call came to: places used, values stored, whether a conversion was completed, whether the input ended. */
struct __result {
  int __stored, __assigned;
  _Bool __is_begun, __is_at_end;
};

static const char __valid[1];

static int __read(void) {
  int __character = getchar();
  __reader.__taken += __character != EOF;
  return __character;
}

static void __unread(int __character) {
  if (__character != EOF) {
    __reader.__taken--;
    __pushed = __character;
  }
}

static _Bool __is_space(int __character) {
  return __character == ' ' || (__character >= '\t' && __character <= '\r');
}

static void __skip_space(void) {
  int __character;
  while (__is_space(__character = __read()))
    ;
  __unread(__character);
}

/* A size of 1, 2, 4 or 8 bytes, by the letters before the conversion (7.21.6.2p11). */
static const char *__read_length(const char *__format, struct __conversion *__asked) {
  __asked->__bytes = 4;
  __asked->__is_long_long = __format[0] == 'l' && __format[1] == 'l';
  if (*__format == 'h')
    __asked->__bytes = __format[1] == 'h' ? 1 : 2;
  else if (*__format == 'l' || *__format == 'j' || *__format == 'z' || *__format == 't')
    __asked->__bytes = 8;
  else
    return __format;
  return __format + (__asked->__is_long_long || __asked->__bytes == 1 ? 2 : 1);
}

/* What stands behind %, up to the letter of the conversion. */
static const char *__read_conversion(const char *__format, struct __conversion *__asked) {
  __asked->__is_dropped = *__format == '*';
  __format += __asked->__is_dropped;
  __asked->__width = 0;
  for (; *__format >= '0' && *__format <= '9'; __format++)
    __asked->__width = __asked->__width * 10 + (*__format - '0');
  __format = __read_length(__format, __asked);
  __asked->__kind = *__format;
  return __format;
}

/* A number is stored as one of the signed type: it is the same for the unsigned one (6.5p7). */
static void __store_number(void *__place, struct __conversion *__asked, unsigned long __value) {
  if (__asked->__kind == 'p')
    *(void **)__place = (void *)__value;
  else if (__asked->__bytes == 1)
    *(signed char *)__place = (signed char)__value;
  else if (__asked->__bytes == 2)
    *(short *)__place = (short)__value;
  else if (__asked->__bytes == 4)
    *(int *)__place = (int)__value;
  else if (__asked->__is_long_long)
    *(long long *)__place = (long long)__value;
  else
    *(long *)__place = (long)__value;
}

/* Whether the object has the number: what is signed has half as many, and one more below zero. */
static void __must_hold(struct __conversion *__asked, unsigned long __value, _Bool __is_negative, _Bool __is_above) {
  unsigned long __most = 18446744073709551615ul >> (64 - 8 * __asked->__bytes);
  _Bool __is_signed = __asked->__kind == 'd' || __asked->__kind == 'i';
  if (__is_signed)
    __most = __most / 2 + __is_negative;
  __is_above = __is_above || __value > __most;
  __asked->__is_dropped = __asked->__is_dropped || __valid[__is_above];
}

static int __digit_of(int __character) {
  if (__character >= '0' && __character <= '9')
    return __character - '0';
  if (__character >= 'a' && __character <= 'f')
    return __character - 'a' + 10;
  return __character >= 'A' && __character <= 'F' ? __character - 'A' + 10 : 16;
}

/* The digits of a number, of which no more than some are read; what they come to is told, or that there are none. */
static _Bool __read_digits(int __base, size_t __most, size_t __digits, unsigned long *__value, _Bool *__is_above) {
  int __character = EOF;
  while (__most > 0 && __digit_of(__character = __read()) < __base) {
    *__is_above = *__is_above || *__value > (18446744073709551615ul - __digit_of(__character)) / __base;
    *__value = *__value * __base + __digit_of(__character);
    __digits++;
    if (--__most == 0)
      return 1;
  }
  if (__most > 0)
    __unread(__character);
  return __digits > 0;
}

/* The base of a conversion's digits; 0 leaves it to a prefix. */
static int __base_asked(char __kind) {
  if (__kind == 'x' || __kind == 'X' || __kind == 'p')
    return 16;
  return __kind == 'o' ? 8 : __kind == 'i' ? 0 : 10;
}

/* A number with its sign and prefix (7.21.6.2p12 with 7.22.1.4p3): the longest text that is one, or begins one (p9). */
static _Bool __read_integer(void *__place, struct __conversion *__asked) {
  int __base = __base_asked(__asked->__kind);
  size_t __most = __asked->__width ? __asked->__width : 18446744073709551615ul, __digits = 0;
  unsigned long __value = 0;
  _Bool __is_above = 0;
  int __character = __read();
  _Bool __is_negative = __character == '-';
  if (__character == '-' || __character == '+')
    __character = --__most > 0 ? __read() : EOF;
  if (__character == '0' && (__base == 0 || __base == 16)) {
    __digits = 1;
    __character = --__most > 0 ? __read() : EOF;
    if (__most > 0 && (__character == 'x' || __character == 'X')) {
      __base = 16;
      __digits = 0;
      __character = --__most > 0 ? __read() : EOF;
    } else if (__base == 0)
      __base = 8;
  }
  __unread(__character);
  if (!__read_digits(__base ? __base : 10, __most, __digits, &__value, &__is_above))
    return 0;
  if (__asked->__is_dropped)
    return 1;
  __must_hold(__asked, __value, __is_negative, __is_above);
  __store_number(__place, __asked, __is_negative ? -__value : __value);
  return 1;
}

/* Whether a character is in the set between [ and ], and where the set ends. */
static _Bool __is_in_set(const char *__set, const char **__end, int __sought) {
  _Bool __is_other = *__set == '^', __is_found = 0;
  __set += __is_other;
  const char *__at = __set;
  do {
    if (__at[0] != 0 && __at[1] == '-' && __at[2] != ']' && __at[2] != 0) {
      __is_found = __is_found || ((unsigned char)__at[0] <= __sought && __sought <= (unsigned char)__at[2]);
      __at += 2;
    } else {
      __is_found = __is_found || (unsigned char)*__at == __sought;
    }
    __at += __valid[*__at == 0] + 1;
  } while (*__at != ']');
  *__end = __at;
  return __sought != EOF && __is_found != __is_other;
}

/* Whether the next character belongs to the item: for c any one, for s one that is no space, for [ one of the set. */
static _Bool __belongs(char __kind, const char *__set, const char **__end, int __character) {
  if (__kind == '[')
    return __is_in_set(__set, __end, __character);
  return __character != EOF && (__kind == 'c' || !__is_space(__character));
}

/* A character, or a wide one for an l before the conversion: each has the value of its byte. */
static void __store_character(void *__place, size_t __at, struct __conversion *__asked, int __character) {
  if (__asked->__bytes == 8)
    ((int *)__place)[__at] = __character;
  else
    ((char *)__place)[__at] = (char)__character;
}

static _Bool __read_text(void *__place, struct __conversion *__asked, const char *__set, const char **__end) {
  size_t __most = __asked->__width ? __asked->__width : __asked->__kind == 'c' ? 1 : 18446744073709551615ul;
  size_t __length = 0;
  int __character = EOF;
  while (__length < __most && __belongs(__asked->__kind, __set, __end, __character = __read())) {
    if (!__asked->__is_dropped)
      __store_character(__place, __length, __asked, __character);
    __length++;
  }
  if (__length < __most)
    __unread(__character);
  if (__asked->__kind == 'c')
    return __length == __most;
  if (__length > 0 && !__asked->__is_dropped)
    __store_character(__place, __length, __asked, 0);
  return __length > 0;
}

/* What printf's %p writes: 0x and hexadecimal digits, or (nil). */
static _Bool __read_pointer(void *__place, struct __conversion *__asked) {
  static const char __nil[] = "(nil)";
  int __at = 0, __character = __read();
  __asked->__bytes = 8;
  if (__character != '(') {
    __unread(__character);
    return __read_integer(__place, __asked);
  }
  while (__nil[++__at] && (__character = __read()) == __nil[__at])
    ;
  if (__nil[__at])
    __unread(__character);
  else if (!__asked->__is_dropped)
    __store_number(__place, __asked, 0);
  return __nil[__at] == 0;
}

/* One conversion whose input has begun: whether the input matches it. */
static _Bool __convert(void *__place, struct __conversion *__asked, const char **__format) {
  switch (__asked->__kind) {
  case 'd': case 'i': case 'u': case 'o': case 'x': case 'X':
    return __read_integer(__place, __asked);
  case 'p':
    return __read_pointer(__place, __asked);
  case 'c': case 's':
    return __read_text(__place, __asked, NULL, NULL);
  case '[':
    return __read_text(__place, __asked, *__format + 1, __format);
  default:
    return __valid[1];
  }
}

/* Whether there is any input left: where there is none, reading ends with an input failure (7.21.6.2p9). */
static _Bool __has_more(void) {
  int __character = __read();
  __unread(__character);
  return __character != EOF;
}

/* Characters of the format that are no conversion; 7.21.6.2p5 and p6. */
static _Bool __matches(char __wanted) {
  int __character;
  if (__is_space(__wanted)) {
    __skip_space();
    return 1;
  }
  __character = __read();
  if (__character == (unsigned char)__wanted)
    return 1;
  __unread(__character);
  return 0;
}

/* A literal character or a %% of the format; `__format` goes to its last character. */
static _Bool __read_literal(const char **__format, _Bool *__is_at_end) {
  if (**__format == '%') {
    __skip_space();
    ++*__format;
  }
  *__is_at_end = !__is_space(**__format) && !__has_more();
  return !*__is_at_end && __matches(**__format);
}

/* The next conversion: whether it matches. It takes a place where it stores, and counts where it isn't %n (p12). */
static _Bool __read_item(const char **__format, void **__places, struct __result *__result) {
  struct __conversion __asked;
  *__format = __read_conversion(*__format + 1, &__asked);
  if (__asked.__kind == 'n') {
    __store_number(__places[__result->__stored++], &__asked, __reader.__taken);
    return 1;
  }
  if (__asked.__kind != 'c' && __asked.__kind != '[')
    __skip_space();
  __result->__is_at_end = !__has_more();
  if (__result->__is_at_end || !__convert(__places[__result->__stored], &__asked, __format))
    return 0;
  __result->__stored += !__asked.__is_dropped;
  __result->__assigned += !__asked.__is_dropped;
  __result->__is_begun = 1;
  return 1;
}

struct __too_many_arguments;

/* The last parameter is no place: an argument more than there are places breaks a constraint. */
static int __scan(const char *__format, void *__1, void *__2, void *__3, void *__4, void *__5, void *__6, void *__7,
                  void *__8, void *__9, void *__10, void *__11, void *__12, struct __too_many_arguments *__none) {
  void *__places[13] = {__1, __2, __3, __4, __5, __6, __7, __8, __9, __10, __11, __12, NULL};
  struct __result __result = {0, 0, 0, 0};
  _Bool __goes_on = 1;
  __reader.__taken = 0;
  for (; __goes_on && *__format; __format += __goes_on)
    if (__format[0] == '%' && __format[1] != '%')
      __goes_on = __read_item(&__format, __places, &__result);
    else
      __goes_on = __read_literal(&__format, &__result.__is_at_end);
  return __result.__is_at_end && !__result.__is_begun ? EOF : __result.__assigned;
}

#define scanf(...) __scan_places(__VA_ARGS__, 0, 0, 0, 0, 0, 0, 0, 0, 0, 0, 0, 0, 0, 0)
#define __scan_places(format, a, b, c, d, e, f, g, h, i, j, k, l, m, ...) \
  __scan(format, a, b, c, d, e, f, g, h, i, j, k, l, m)
#define fscanf(stream, ...) (__must_be_input(stream), scanf(__VA_ARGS__))

#endif
