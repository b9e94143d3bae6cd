//! uses _Alignof
//! uses _Static_assert
//! uses a ; that ends nothing
//! uses spellings __inline
//! uses spellings __extension__
//! uses spellings __typeof__
//! fault undefined clause=6.5.3.2p4 reason=outside line=13
_Static_assert(_Alignof(short) == 2, "short");
struct row { int n[2]; ; };
;
static __inline int at(const __typeof__(int) *from, unsigned long n) {
  _Static_assert(sizeof(char) == 1, "char");
  return from[n];
}
int main(void) {
  __extension__ struct row r = { { 3, 4 } };
  return at(r.n, _Alignof(short));
}
