//! uses what main does not reach
//! defined
struct outer { struct inner { int n; } in; enum kind { FIRST = 3, SECOND } kind; };
static struct outer unused_object;
struct seen *maker(void);
struct seen { int x; };
int main(void) { struct inner i = { SECOND }; struct seen s = { 2 }; enum kind k = FIRST; return i.n * 10 + s.x + k; }
