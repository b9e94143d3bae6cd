/*
 * <stdnoreturn.h>, C17 7.23: all of it. The word _Noreturn itself is taken away before a source is run; that
 * such a function returns (6.7.4p8) is not reported.
 */
#ifndef __STDNORETURN_H
#define __STDNORETURN_H

#define noreturn _Noreturn

#endif
