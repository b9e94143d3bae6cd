//! uses _Alignof
//! uses _Static_assert
//! uses a ; that ends nothing
//! uses spellings __inline
//! uses spellings __extension__
//! uses spellings __typeof__
//! fault undefined clause=6.2.4p2 reason=ended line=16
struct node { struct node *next; ; long n; };
;
static __inline struct node *made(__typeof__(long) n) {
  __extension__ struct node here = { 0, n };
  _Static_assert(sizeof here == 16, "node");
  struct node *p = &here;
  return p; }
int main(void) {
  return made(_Alignof(struct node))->n;
}
