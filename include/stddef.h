/*
 * <stddef.h>, C17 7.19: size_t, ptrdiff_t, max_align_t, wchar_t, NULL and offsetof.
 *
 * offsetof is defined for every member of every structure and union of at most 16384 bytes, and is refused for
 * a greater one. It is no constant expression here (7.19p3 says it is one): it stands in no array's size, no
 * case, and no initializer of a static object.
 *
 * Brings one static object, of 16384 bytes.
 */
#ifndef __STDDEF_H
#define __STDDEF_H

#define __needs_size
#define __needs_wide
#define __needs_difference
#include <pv_types.h>

#define NULL ((void *)0)

/*
 * Selecting a member through a null pointer is undefined (6.5.3.2p4), and what is undefined is reported: so a
 * member's place is measured within an object that is there. No byte of it is read or written.
 */
static union { max_align_t __first; char __bytes[16384]; } __ruler;

/* The last operand is 0, and breaks a constraint (6.7.6.2p1) where the ruler is too short. */
#define offsetof(type, member) \
  ((size_t)((char *)&((type *)__ruler.__bytes)->member - __ruler.__bytes) \
   + 0 * sizeof(char [sizeof(type) <= sizeof __ruler ? 1 : -1]))

#endif
