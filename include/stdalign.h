/*
 * <stdalign.h>, C17 7.15. The words _Alignas and _Alignof are left out of the language. So alignof is written in another
 * way: an integer constant expression of the same value, for a type whose name has nothing after the place where a
 * declaration would have a name (an array's has). alignas is refused where it stands.
 */
#ifndef __STDALIGN_H
#define __STDALIGN_H

#define alignas _Alignas
#define alignof(type) (sizeof(struct { char __first; type __second; }) - sizeof(type))
#define __alignas_is_defined 1
#define __alignof_is_defined 1

#endif
