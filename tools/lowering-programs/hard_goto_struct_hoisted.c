//! uses goto
//! defined
struct p { int x, y; };
static struct p make(int n) { struct p p = { n, n * 2 }; return p; }
int main(void) {
  int n = 1, sum = 0;
loop:;
  struct p p = make(n), *q = &p;
  unsigned char c = 250 + n;
  sum += q->y + c;
  if (++n < 4) goto loop;
  return sum % 251;
}
