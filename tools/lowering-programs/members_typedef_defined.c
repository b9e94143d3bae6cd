//! uses members without a name
//! defined
typedef struct point { int x, y; } point;
struct line { int kind; struct { point from, to; }; };
int main(void) {
  struct line l = { 1, { { 2, 3 }, { 4, 5 } } };
  point *p = &l.to;
  l.from.x += p->y;
  return l.from.x * 10 + l.to.x;
}
