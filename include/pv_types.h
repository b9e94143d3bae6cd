/*
 * The typedef names of all headers, each once: the language has no second declaration of a typedef name
 * (docs/LANGUAGE.md), so two headers that have size_t both (7.19, 7.24) take it from here. A header asks for
 * a group of names by a macro __needs_GROUP and gets no other, since a program may use the others itself
 * (7.1.3p1). A program includes the headers of C17, and never this one.
 *
 * Whatever the headers need and C17 doesn't name begins with two underscores, parameters too: such names are
 * reserved (7.1.3p1), and no macro of a program meets them.
 */
#if defined __needs_size && !defined __has_size
#define __has_size
typedef unsigned long size_t;
#endif
#undef __needs_size

#if defined __needs_wide && !defined __has_wide
#define __has_wide
typedef int wchar_t;
#endif
#undef __needs_wide

/* 7.19p2. No type is aligned more strictly than these two. */
#if defined __needs_difference && !defined __has_difference
#define __has_difference
typedef long ptrdiff_t;
typedef union { long long __integer; void *__pointer; } max_align_t;
#endif
#undef __needs_difference

/* 7.20.1 */
#if defined __needs_integers && !defined __has_integers
#define __has_integers
typedef signed char int8_t, int_least8_t, int_fast8_t;
typedef short int16_t, int_least16_t;
typedef int int32_t, int_least32_t;
typedef long int64_t, int_least64_t, int_fast16_t, int_fast32_t, int_fast64_t, intptr_t, intmax_t;
typedef unsigned char uint8_t, uint_least8_t, uint_fast8_t;
typedef unsigned short uint16_t, uint_least16_t;
typedef unsigned int uint32_t, uint_least32_t;
typedef unsigned long uint64_t, uint_least64_t, uint_fast16_t, uint_fast32_t, uint_fast64_t, uintptr_t, uintmax_t;
#endif
#undef __needs_integers

/* 7.8p2 */
#if defined __needs_greatest_quotient && !defined __has_greatest_quotient
#define __has_greatest_quotient
typedef struct { long quot, rem; } imaxdiv_t;
#endif
#undef __needs_greatest_quotient

/* 7.22p3 */
#if defined __needs_quotients && !defined __has_quotients
#define __has_quotients
typedef struct { int quot, rem; } div_t;
typedef struct { long quot, rem; } ldiv_t;
typedef struct { long long quot, rem; } lldiv_t;
#endif
#undef __needs_quotients

/* 7.21.1p2. A stream has no members: see <stdio.h>. */
#if defined __needs_stream && !defined __has_stream
#define __has_stream
typedef struct __stream FILE;
#endif
#undef __needs_stream

/* 7.27.1p3 */
#if defined __needs_time && !defined __has_time
#define __has_time
typedef long time_t, clock_t;
#endif
#undef __needs_time

/* 7.14p2 */
#if defined __needs_signal && !defined __has_signal
#define __has_signal
typedef int sig_atomic_t;
#endif
#undef __needs_signal

/* <sys/types.h> of POSIX */
#if defined __needs_system && !defined __has_system
#define __has_system
typedef unsigned char u_char;
typedef unsigned short u_short;
typedef unsigned int u_int, uid_t, gid_t, id_t, mode_t, useconds_t;
typedef unsigned long u_long, dev_t, ino_t, nlink_t, fsblkcnt_t, fsfilcnt_t;
typedef int pid_t, key_t, clockid_t;
typedef long ssize_t, off_t, blkcnt_t, blksize_t, suseconds_t;
#endif
#undef __needs_system
