//! uses members without a name
//! fault undefined clause=6.5p7 reason=type line=6
struct s { union { int i; struct { short a, b; }; }; long l; };
int main(void) {
  struct s v; v.i = 1; v.l = 2;
  return v.a + *(short *)
    &v.l;
}
