/*
 * <assert.h>, C17 7.2: assert and static_assert.
 *
 * An assertion that fails prints `FILE:LINE: assertion failed: EXPRESSION` and calls abort (7.2.1.1p2); the name
 * of the function is not told, since __func__ is left out. The text goes to the one output that there is.
 * static_assert (7.2p3) declares an enumerator whose value is no constant where the assertion doesn't hold, so
 * it stands in a block or at file scope, and not among the members of a structure; its text is not told.
 *
 * Brings one string literal, which comes before the program's own (`@lit` of a script of addresses).
 */
#ifndef __ASSERT_H
#define __ASSERT_H

int printf(const char *, ...);
void abort(void);

static void __assertion_failed(const char *__expression, const char *__file, int __line) {
  printf("%s:%d: assertion failed: %s\n", __file, __line, __expression);
  abort();
}

/* The words are joined when the macros in them have been replaced (6.10.3.1). */
#define __joined(left, right) left ## right
#define __named(number) __joined(__asserted_, number)
#define static_assert(expression, text) enum { __named(__COUNTER__) = 1 / !!(expression) }

#endif

/* Each time that the header is included, NDEBUG is looked at (7.2p1). */
#undef assert
#ifdef NDEBUG
#define assert(expression) ((void)0)
#else
#define assert(expression) \
  ((expression) ? (void)0 : __assertion_failed(#expression, __FILE__, __LINE__))
#endif
