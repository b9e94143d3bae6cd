//! uses what main does not reach
//! fault undefined clause=6.5.5p5 reason=divide line=4
double unused(double d) { return d; } static int zero(void) { return 0; } double unused_too(void) {
  return 0.5; } int divide(int a) { return a /
  zero(); } int main(void) { return divide(1); }
