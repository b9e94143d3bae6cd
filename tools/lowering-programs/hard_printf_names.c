//! uses formats of printf
//! uses functions with ...
//! defined
/* Names of the program mean nothing in what is written, and two question marks no other character. */
#include <stdarg.h>
#include <stdio.h>
typedef int value;
typedef struct { int left; } at;
typedef char *print;
typedef long given;
enum { end = 3, text, count };
static int width = 5;
static int say(const char *format, ...) { va_list list; va_start(list, format); int n = vprintf(format, list); va_end(list); return n; }
int main(void) {
  char b[40]; value v = 7; at w = { 4 }; given g = 9; print p = b;
  printf("%5d|%-4x|%.2s ?\?=\n", v, w.left, "abc");
  sprintf(p, "%03d %ld", v, g);
  return say("%s %5d\n", b, end + text + count + width);
}
