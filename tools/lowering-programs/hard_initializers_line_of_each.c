//! uses initializers
//! fault undefined clause=6.2.4p2 reason=ended line=11
struct three { int *a, *b[2]; int n; };
static int *dead(void) { int x = 1; int *p = &x; return p; }
int main(void) {
  int *gone = dead(), one = 1;
  struct three t = { .n = 4,
    .b = { [1] =
      &one,
    [0] =
      gone }, };
  return *t.b[1];
}
