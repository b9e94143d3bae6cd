//! uses initializers
//! defined
#include <string.h>
struct gap { char c; long l; };
int main(void) {
  struct gap g = { .l = 5 };
  unsigned char zero[sizeof g] = { [0] = 0 };
  memset(zero + 8, 5, 1);
  return memcmp(&g, zero, sizeof g) == 0 ? 4 : 5;
}
