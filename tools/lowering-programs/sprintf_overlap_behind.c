//! uses formats of snprintf
//! fault undefined clause=7.24.2.1p2 reason=overlap line=6
#include <stdio.h>
int main(void) {
  char text[20] = "abcdef";
  snprintf(text, sizeof text, "%s%s", "12", text + 4);
  return text[3];
}
