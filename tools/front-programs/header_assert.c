#include <assert.h>

static_assert(sizeof(int) == 4, "int has four bytes");
static_assert(1, "two at file scope"); static_assert(2 > 1, "two in a line");

static int calls;

static int called(void) {
  calls++;
  return 1;
}

#define NDEBUG
#include <assert.h>

static void without(void) {
  assert(called());
}

#undef NDEBUG
#include <assert.h>

int main(void) {
  static_assert(1 + 1 == 2, "in a block too");
  without();
  assert(calls == 0);
  assert(called());
  calls ? assert(calls == 1) : (void)0;
  return 0;
}
