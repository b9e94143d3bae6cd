#include <assert.h>

struct header { char kind; long length; };

static_assert(sizeof(struct header) == 9, "a header has no padding");

int main(void) {
  return 0;
}
