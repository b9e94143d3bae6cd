//! uses initializers
//! fault undefined clause=6.2.4p2 reason=ended line=9
struct pair { int *first, *second; };
int main(void) {
  int *p;
  { int inner = 1; p = &inner; }
  struct pair both = {
    .second =
      p,
  };
  return both.first != 0;
}
