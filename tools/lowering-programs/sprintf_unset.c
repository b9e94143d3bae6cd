//! uses formats of sprintf
//! fault indeterminate line=7
#include <stdio.h>
int main(void) {
  char text[4], part[4];
  part[0] = 'x';
  sprintf(text, "%d%s", 1, part);
  return text[0];
}
