//! uses library functions as values
//! defined
#include <string.h>
static int never(const void *a, const void *b, size_t n) { return n == 0 && a != b; }
int main(int argc, char **argv) {
  int (*how)(const void *, const void *, size_t) = argc > 1 ? never : memcmp;
  return how("abc", "abd", 3) < 0 ? 3 : (*how)(argv, argv, 0);
}
