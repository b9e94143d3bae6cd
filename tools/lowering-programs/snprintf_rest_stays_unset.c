//! uses formats of snprintf
//! fault indeterminate line=6
#include <stdio.h>
int main(void) { char text[8];
  int n = snprintf(text, sizeof text, "%02d:%02d", 7, 5);
  return text[n] + text[n + 1];
}
