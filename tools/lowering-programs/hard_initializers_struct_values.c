//! uses initializers
//! defined
struct pair { int x, y; };
struct box { struct pair p, q; int t[2]; };
static struct pair make(int n) { struct pair p = { n, n + 1 }; return p; }
int main(void) {
  struct pair a = { 1, 2 };
  struct box b = { a, 3, 4, 5 }, c = { .q = a, { 7 } }, d[2] = { b, c.p, 9, 5 > 0 ? 8 : 0 };
  struct box e = { make(3), .t[1] = make(5).y, .q.x = 6 };
  return b.p.y + b.q.x + c.q.y + c.t[0] + d[0].t[0] + d[1].q.x + d[1].q.y + e.p.y + e.t[1] + e.q.x;
}
