//! uses a switch without braces
//! uses _Static_assert
//! fault undefined clause=6.2.4p2 reason=ended line=8
_Static_assert(sizeof(int) == 4, "int");
int main(void) {
  int *p = 0; _Static_assert(sizeof p == 8, "pointers");
  switch (!p) case 1: { int inner = 3; p = &inner; }
  return *p;
}
