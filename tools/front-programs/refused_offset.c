#include <stddef.h>

struct large { char bytes[16384]; char last; };

int main(void) {
  return (int)offsetof(struct large, last);
}
