//! uses compound literals
//! fault undefined clause=6.5p2 reason=unsequenced line=8
struct p { int x, y; };
static int f(struct p *p, int n) { return p->x + n; }
int main(void) {
  int i = 1;
  return f(&(struct p){ 1, i },
           i++);
}
