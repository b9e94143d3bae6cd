/*
 * <stdarg.h>, C17 7.16, with --lower alone (docs/LOWERING.md): without it the language has no functions with `...` but printf.
 * The names stand for those by which clang, which reads the text then, knows them.
 */
#ifndef __STDARG_H
#define __STDARG_H

#ifndef __pv_lower
#error "functions with ... are left out, and --lower writes them out"
#endif

typedef __builtin_va_list va_list;
#define va_start(list, last) __builtin_va_start(list, last)
#define va_arg(list, type) __builtin_va_arg(list, type)
#define va_end(list) __builtin_va_end(list)
#define va_copy(target, source) __builtin_va_copy(target, source)

#endif
