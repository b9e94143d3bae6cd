//! uses members without a name
//! fault indeterminate line=7
struct node { struct { int a, b; }; int c; };
int main(void) {
  struct node n, *p = &n;
  n.a = n.c = 2;
  return p->a + p->b;
}
