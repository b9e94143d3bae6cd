/*
 * <time.h>, C17 7.27: all that needs no floating-point numbers and no calendar. There is neither a clock nor a
 * calendar, and each function says so as C17 lets it: clock, time and mktime give -1 (7.27.2.1p3, 7.27.2.4p3,
 * 7.27.2.3p3), gmtime and localtime a null pointer (7.27.3.3p3, 7.27.3.4p3), timespec_get 0 (7.27.2.5p4).
 *
 * Left out: difftime, which gives a double; asctime, ctime and strftime.
 */
#ifndef __TIME_H
#define __TIME_H

#define __needs_size
#define __needs_time
#include <pv_types.h>

#define NULL ((void *)0)
#define CLOCKS_PER_SEC ((clock_t)1000000)
#define TIME_UTC 1

struct timespec {
  time_t tv_sec;
  long tv_nsec;
};

struct tm {
  int tm_sec, tm_min, tm_hour, tm_mday, tm_mon, tm_year, tm_wday, tm_yday, tm_isdst;
};

static clock_t clock(void) {
  return -1;
}

static time_t time(time_t *__place) {
  if (__place)
    *__place = -1;
  return -1;
}

/* What is given is looked at, so that it must be there (7.1.4p1). */
static time_t mktime(struct tm *__parts) {
  struct tm __read = *__parts;
  return -1;
}

static struct tm *gmtime(const time_t *__time) {
  time_t __read = *__time;
  return NULL;
}

static struct tm *localtime(const time_t *__time) {
  return gmtime(__time);
}

static int timespec_get(struct timespec *__place, int __base) {
  return 0;
}

#endif
