//! uses _Alignof
//! uses _Static_assert
//! uses a ; that ends nothing
//! uses spellings __inline
//! uses spellings __extension__
//! uses spellings __typeof__
//! fault indeterminate line=12
/* What is not set is told where it is read. */
struct pair { int x; ; int y; };
;
static __inline int sum(__typeof__(struct pair) p) { return p.x +
  p.y; }
int main(void) {
  struct pair p;
  __extension__ int n = _Alignof(struct pair);
  _Static_assert(sizeof(int) == 4, "int");
  p.x = n;
  return sum(p);
}
