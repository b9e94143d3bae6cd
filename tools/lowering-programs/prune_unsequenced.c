//! uses what main does not reach
//! fault undefined clause=6.5p2 reason=unsequenced line=11
extern int elsewhere(void);
int calls_elsewhere(void) { return elsewhere(); }
static int
f(int a,
  int b) { return a + b; }
int main(void) {
  int i = 0;
  return f(i++,
           i);
}
