//! uses members without a name
//! fault undefined clause=6.5.16.1p3 reason=overlap line=7
struct big { int n[3]; };
struct s { union { struct { int first; struct big low; }; struct { struct big high; int last; }; }; };
int main(void) {
  struct s v = { { { 1, { { 2, 3, 4 } } } } };
  v.high = v.low;
  return v.last;
}
