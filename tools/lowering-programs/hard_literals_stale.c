//! uses compound literals
//! fault undefined clause=6.2.4p2 reason=ended line=12
struct p { int x, y; };
int main(void) {
  struct p *q = 0;
  for (int i = 0; i < 2; i++) {
    char unset, *c;
    if (i == 0) c = (char[]){ 1, 2 };
    else { c = (char[2]){ 1, unset };
      return c[0] +
        c[1]; }
    q = &(struct p){ c == 0 };
  }
  return q->x;
}
