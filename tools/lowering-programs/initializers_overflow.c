//! uses initializers
//! fault undefined clause=6.5p5 reason=overflow line=8
int main(void) {
  int most = 2147483647;
  struct { int low; int rest[3]; int high; } v = {
    1,
    2,
    3, most + 1,
    .high = 5 };
  return v.high;
}
