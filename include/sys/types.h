/*
 * <sys/types.h>, which is POSIX's and not C17's: names of types alone, as Linux has them for such a target. What works
 * with files, processes and threads is left out.
 */
#ifndef __SYS_TYPES_H
#define __SYS_TYPES_H

#define __needs_size
#define __needs_time
#define __needs_system
#include <pv_types.h>

#endif
