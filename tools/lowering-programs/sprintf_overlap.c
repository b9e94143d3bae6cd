//! uses formats of sprintf
//! fault undefined clause=7.24.2.1p2 reason=overlap line=6
#include <stdio.h>
int main(void) {
  char text[20] = "abc";
  sprintf(text, "%s!", text);
  return text[3];
}
