//! uses compound literals
//! fault undefined clause=6.9.1p12 reason=value line=7
struct s { int a, b; };
static int nothing(int n) { if (n) return 1; }
static int first(struct s *s) { return s->a; }
int main(void) {
  return first(&(struct s){ 1, nothing(0) });
}
