/*
 * <stdint.h>, C17 7.20: all integer types of 7.20.1, their limits (7.20.2, 7.20.3) and the macros for constants
 * (7.20.4). Of exact width are 8, 16, 32 and 64; a fast type of 16 or 32 bits has 64, as on other systems with
 * pointers of eight bytes.
 *
 * Left out: the limits of sig_atomic_t and wint_t (7.20.3p2), since <signal.h> and <wchar.h> are.
 */
#ifndef __STDINT_H
#define __STDINT_H

#define __needs_integers
#include <pv_types.h>

#define INT8_MAX 127
#define INT8_MIN (-INT8_MAX - 1)
#define UINT8_MAX 255
#define INT16_MAX 32767
#define INT16_MIN (-INT16_MAX - 1)
#define UINT16_MAX 65535
#define INT32_MAX 2147483647
#define INT32_MIN (-INT32_MAX - 1)
#define UINT32_MAX 4294967295u
#define INT64_MAX 9223372036854775807l
#define INT64_MIN (-INT64_MAX - 1)
#define UINT64_MAX 18446744073709551615ul

#define INT_LEAST8_MAX INT8_MAX
#define INT_LEAST8_MIN INT8_MIN
#define UINT_LEAST8_MAX UINT8_MAX
#define INT_LEAST16_MAX INT16_MAX
#define INT_LEAST16_MIN INT16_MIN
#define UINT_LEAST16_MAX UINT16_MAX
#define INT_LEAST32_MAX INT32_MAX
#define INT_LEAST32_MIN INT32_MIN
#define UINT_LEAST32_MAX UINT32_MAX
#define INT_LEAST64_MAX INT64_MAX
#define INT_LEAST64_MIN INT64_MIN
#define UINT_LEAST64_MAX UINT64_MAX

#define INT_FAST8_MAX INT8_MAX
#define INT_FAST8_MIN INT8_MIN
#define UINT_FAST8_MAX UINT8_MAX
#define INT_FAST16_MAX INT64_MAX
#define INT_FAST16_MIN INT64_MIN
#define UINT_FAST16_MAX UINT64_MAX
#define INT_FAST32_MAX INT64_MAX
#define INT_FAST32_MIN INT64_MIN
#define UINT_FAST32_MAX UINT64_MAX
#define INT_FAST64_MAX INT64_MAX
#define INT_FAST64_MIN INT64_MIN
#define UINT_FAST64_MAX UINT64_MAX

#define INTPTR_MAX INT64_MAX
#define INTPTR_MIN INT64_MIN
#define UINTPTR_MAX UINT64_MAX
#define INTMAX_MAX INT64_MAX
#define INTMAX_MIN INT64_MIN
#define UINTMAX_MAX UINT64_MAX
#define PTRDIFF_MAX INT64_MAX
#define PTRDIFF_MIN INT64_MIN
#define SIZE_MAX UINT64_MAX
#define WCHAR_MAX INT32_MAX
#define WCHAR_MIN INT32_MIN

/* A constant has the type that the promotions make of its type (7.20.4.1p2). */
#define INT8_C(constant) constant
#define UINT8_C(constant) constant
#define INT16_C(constant) constant
#define UINT16_C(constant) constant
#define INT32_C(constant) constant
#define UINT32_C(constant) constant ## u
#define INT64_C(constant) constant ## l
#define UINT64_C(constant) constant ## ul
#define INTMAX_C(constant) constant ## l
#define UINTMAX_C(constant) constant ## ul

#endif
