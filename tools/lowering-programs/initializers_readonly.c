//! uses initializers
//! fault undefined clause=6.7.3p6 reason=readonly line=5
static const struct { int a, b; } fixed = { .b = 2 };
int main(void) {
  *(int *)&fixed.a = 1;
  return fixed.b;
}
