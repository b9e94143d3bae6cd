//! uses what main does not reach
//! fault indeterminate line=11
typedef struct { int a[3]; } unused_type;
unused_type unused_object;
enum used { NONE, SOME };
struct pair { char a, b; };
static struct pair make(void) { struct pair p; p.a = SOME; return p; }
int main(void) {
  struct pair p = make();
  return p.a +
    p.b;
}
