//! uses formats of printf
//! defined
/* Pieces of one format far from each other: the marker of a line between them is no piece. */
#include <stdio.h>
#define SHOW(format, value) printf(format, value)
int main(void) {
  SHOW("%5d and "










    "the end\n", 7);
  return printf("%-4d|"













    "\n", 3);
}
