//! uses members without a name
//! fault indeterminate line=7
struct s { struct { char a; union { char b; int c; }; }; };
static struct s copy(struct s v) { return v; }
int main(void) {
  struct s v, w; v.a = 1;
  w = copy(v); return w.a + w.c
    ; }
