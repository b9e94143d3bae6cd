//! uses declarations in a block
//! defined
static int depth(int n) {
  typedef struct frame { struct frame *up; int n; } frame_t;
  static frame_t *last;
  frame_t me = { last, n };
  last = &me;
  int total = n ? depth(n - 1) : 0;
  for (frame_t *f = last; f; f = f->up) total += f->n;
  last = me.up;
  return total;
}
int main(void) { return depth(3); }
