//! uses compound literals
//! fault undefined clause=6.2.4p2 reason=ended line=9
struct p { int x, y; };
int main(void) {
  struct p *q = 0;
  for (int i = 0; i < 2; i++) {
    if (i == 0) { q = &(struct p){ 1, 2 }; i += q->x - 1; }
    else return
      q->y;
  }
  return 0;
}
