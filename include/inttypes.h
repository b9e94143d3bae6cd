/*
 * <inttypes.h>, C17 7.8: <stdint.h>, the conversions of printf for its types, imaxabs, imaxdiv, strtoimax and
 * strtoumax.
 *
 * Left out: the conversions o and X, which printf lacks here; those of scanf; wcstoimax and wcstoumax.
 *
 * Brings two static objects: errno, and the bases that strtoimax knows.
 */
#ifndef __INTTYPES_H
#define __INTTYPES_H

#define __needs_greatest_quotient
#include <pv_types.h>
#include <pv_number.h>
#include <stdint.h>

/* An argument narrower than int is promoted to int (6.5.2.2p6). What %i prints is what %d prints (7.21.6.1p8). */
#define PRId8 "d"
#define PRIi8 "d"
#define PRIu8 "u"
#define PRIx8 "x"
#define PRId16 "d"
#define PRIi16 "d"
#define PRIu16 "u"
#define PRIx16 "x"
#define PRId32 "d"
#define PRIi32 "d"
#define PRIu32 "u"
#define PRIx32 "x"
#define PRId64 "ld"
#define PRIi64 "ld"
#define PRIu64 "lu"
#define PRIx64 "lx"
#define PRIdLEAST8 "d"
#define PRIiLEAST8 "d"
#define PRIuLEAST8 "u"
#define PRIxLEAST8 "x"
#define PRIdLEAST16 "d"
#define PRIiLEAST16 "d"
#define PRIuLEAST16 "u"
#define PRIxLEAST16 "x"
#define PRIdLEAST32 "d"
#define PRIiLEAST32 "d"
#define PRIuLEAST32 "u"
#define PRIxLEAST32 "x"
#define PRIdLEAST64 "ld"
#define PRIiLEAST64 "ld"
#define PRIuLEAST64 "lu"
#define PRIxLEAST64 "lx"
#define PRIdFAST8 "d"
#define PRIiFAST8 "d"
#define PRIuFAST8 "u"
#define PRIxFAST8 "x"
#define PRIdFAST16 "ld"
#define PRIiFAST16 "ld"
#define PRIuFAST16 "lu"
#define PRIxFAST16 "lx"
#define PRIdFAST32 "ld"
#define PRIiFAST32 "ld"
#define PRIuFAST32 "lu"
#define PRIxFAST32 "lx"
#define PRIdFAST64 "ld"
#define PRIiFAST64 "ld"
#define PRIuFAST64 "lu"
#define PRIxFAST64 "lx"
#define PRIdMAX "ld"
#define PRIiMAX "ld"
#define PRIuMAX "lu"
#define PRIxMAX "lx"
#define PRIdPTR "ld"
#define PRIiPTR "ld"
#define PRIuPTR "lu"
#define PRIxPTR "lx"

static intmax_t imaxabs(intmax_t __number) {
  return __number < 0 ? -__number : __number;
}

static imaxdiv_t imaxdiv(intmax_t __number, intmax_t __divisor) {
  imaxdiv_t __quotient = {__number / __divisor, __number % __divisor};
  return __quotient;
}

static intmax_t strtoimax(const char *__text, char **__end, int __base) {
  return __signed_number(__text, __end, __base);
}

static uintmax_t strtoumax(const char *__text, char **__end, int __base) {
  return __unsigned_number(__text, __end, __base);
}

#endif
