//! uses initializers
//! fault undefined clause=6.5p2 reason=unsequenced line=7
struct pair { int first, second; };
int main(void) {
  int i = 0;
  struct pair both = { .first = 1,
    .second = i++ + i };
  return both.first;
}
