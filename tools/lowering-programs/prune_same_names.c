//! uses what main does not reach
//! defined
struct size { int size; };
int counter;
static int shadow(void) { int counter = 3; return counter; }
static int label(void) { struct size s = {4}; return s.size; }
int unused(int shadow) { return shadow; }
int main(void) {
  return shadow() + label();
}
