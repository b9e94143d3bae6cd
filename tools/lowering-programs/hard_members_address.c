//! uses members without a name
//! fault undefined clause=6.5.6p8 reason=outside line=7
struct s { int a; struct { int b[2]; union { int c; char d; }; }; };
int main(void) {
  struct s v, *p = &v; p->c = 3;
  int *q = &p->b[1];
  return *(q + 1) + *(q + 3);
}
