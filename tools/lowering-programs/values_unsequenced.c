//! uses library functions as values
//! fault undefined clause=6.5p2 reason=unsequenced line=8
#include <string.h>
int main(void) {
  size_t (*length)(const char *) = strlen;
  const char *s = "abc";
  return length(s++) + length(
      s);
}
