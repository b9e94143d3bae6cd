//! uses members without a name
//! fault undefined clause=6.5p2 reason=unsequenced line=6
struct node { union { int number; unsigned bits; }; };
int main(void) {
  struct node n = { 1 }, *p = &n;
  return n.number++ + p->bits;
}
