//! uses members without a name
//! fault undefined clause=6.5.3.2p4 reason=null line=6
struct node { int kind; struct { int a; struct { long b; }; }; };
int main(void) {
  struct node *p = 0;
  return &p->b != 0;
}
