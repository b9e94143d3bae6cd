/* No macro of a program meets a name within the headers (7.1.3p1). */
#define text "text"
#define number 1
#define size 2
#define at 3
#define end 4
#define stream 5
#define character 6
#define needs_size 7
#define inline_me static inline
#include <assert.h>
#include <ctype.h>
#include <errno.h>
#include <inttypes.h>
#include <iso646.h>
#include <limits.h>
#include <stdbool.h>
#include <stddef.h>
#include <stdint.h>
#include <stdio.h>
#include <stdlib.h>
#include <stdnoreturn.h>
#include <string.h>

inline_me int sum(void) {
  register int result = number + size + at + end + stream + character;
  return result;
}

int main(void) {
  assert(sum() == 21);
  puts(text);
  return needs_size - 7;
}
