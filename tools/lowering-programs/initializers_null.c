//! uses initializers
//! fault undefined clause=6.5.3.2p4 reason=null line=5
static const char *const names[] = { [2] = "two", [0] = "zero" };
static int length(const char *s) {
  return *s ? 1 + length(s + 1) : 0;
}
int main(void) { return length(names[0]) + length(names[2]) + length(names[1]); }
