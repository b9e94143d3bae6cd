//! uses compound literals
//! fault indeterminate line=8
struct two { char a, b; };
static int use(const struct two *t) { return
  t->a +
  0; }
static int give(struct two *t) { char unset; *t = (struct two){ unset, 1 }; return t->b; }
int main(void) { struct two t; return give(&t) + t.a + use(&t); }
