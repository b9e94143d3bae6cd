//! uses compound literals
//! defined
struct p { int x; };
static struct p *bump(struct p *p) { p->x++; return p; }
int main(void) {
  int n = 0; struct p *kept;
  if ((kept = bump(&(struct p){ n }))->x == 1) n += kept->x * 10; else n += kept->x;
  for (int i = 0, *q = &(int){ 3 }; i < *q; i++) { n += *q; if (i == 1) *q = 0; }
  switch (*(kept = &(struct p){ 2 }), kept->x) { case 2: n += kept->x; }
  return n;
}
