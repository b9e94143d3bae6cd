/*
 * <ctype.h>, C17 7.4: all of it, in the "C" locale.
 *
 * An argument that is neither EOF nor the value of an unsigned char makes a call undefined (7.4p1): it is reported
 * as reading outside of __characters.
 *
 * Brings one static object, of 257 bytes.
 */
#ifndef __CTYPE_H
#define __CTYPE_H

/* A byte for EOF, which is -1, and one for each unsigned char; all are 0. */
static const char __characters[257];

static int __is_between(int __character, int __first, int __last) {
  __character += __characters[__character + 1];
  return __first <= __character && __character <= __last;
}

static int isdigit(int __character) {
  return __is_between(__character, '0', '9');
}

static int isupper(int __character) {
  return __is_between(__character, 'A', 'Z');
}

static int islower(int __character) {
  return __is_between(__character, 'a', 'z');
}

static int isalpha(int __character) {
  return isupper(__character) || islower(__character);
}

static int isalnum(int __character) {
  return isalpha(__character) || isdigit(__character);
}

static int isxdigit(int __character) {
  return isdigit(__character) || __is_between(__character, 'A', 'F') || __is_between(__character, 'a', 'f');
}

static int isblank(int __character) {
  return __is_between(__character, ' ', ' ') || __character == '\t';
}

static int isspace(int __character) {
  return __is_between(__character, '\t', '\r') || __character == ' ';
}

static int isprint(int __character) {
  return __is_between(__character, ' ', '~');
}

static int isgraph(int __character) {
  return __is_between(__character, '!', '~');
}

static int ispunct(int __character) {
  return isgraph(__character) && !isalnum(__character);
}

static int iscntrl(int __character) {
  return __is_between(__character, 0, 31) || __character == 127;
}

static int tolower(int __character) {
  return isupper(__character) ? __character - 'A' + 'a' : __character;
}

static int toupper(int __character) {
  return islower(__character) ? __character - 'a' + 'A' : __character;
}

#endif
