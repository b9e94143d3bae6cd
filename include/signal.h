/*
 * <signal.h>, C17 7.14: all of it. Nothing comes from outside, so that a handler is called by raise alone. A signal is
 * handled by default at first; then raise fails (7.14.2.1p4), but for SIGABRT, where it calls abort. SIGABRT can't be
 * caught, since abort calls no handler: signal fails for it, and for numbers that are none (7.14.1.1p8).
 *
 * Brings two static objects, errno and the handlers, and the functions that SIG_ERR and SIG_IGN are.
 */
#ifndef __SIGNAL_H
#define __SIGNAL_H

#define __needs_signal
#include <pv_types.h>

#define SIGINT 2
#define SIGILL 4
#define SIGABRT 6
#define SIGFPE 8
#define SIGSEGV 11
#define SIGTERM 15

void abort(void);
static int __errno;

static void __failed(int __number) {}
static void __ignored(int __number) {}

#define SIG_DFL ((void (*)(int))0)
#define SIG_ERR __failed
#define SIG_IGN __ignored

static void (*__handlers[16])(int);

static _Bool __is_signal(int __number) {
  return __number == SIGINT || __number == SIGILL || __number == SIGABRT || __number == SIGFPE || __number == SIGSEGV
    || __number == SIGTERM;
}

static void (*signal(int __number, void (*__handler)(int)))(int) {
  void (*__before)(int) = SIG_ERR;
  if (!__is_signal(__number) || (__number == SIGABRT && __handler != SIG_DFL)) {
    __errno = 22;
    return SIG_ERR;
  }
  __before = __handlers[__number];
  __handlers[__number] = __handler;
  return __before;
}

/* A handler stays until it is changed; whether it does is left open (7.14.1.1p3). */
static int raise(int __number) {
  if (__number == SIGABRT)
    abort();
  if (!__is_signal(__number) || __handlers[__number] == SIG_DFL)
    return -1;
  __handlers[__number](__number);
  return 0;
}

#endif
