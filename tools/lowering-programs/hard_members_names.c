//! uses members without a name
//! defined
struct a { int x; struct { int y; struct { int x2; } z; }; };
struct b { struct { struct a x; }; int y; };
typedef struct { union { struct { int low, high; }; long both; }; } word;
static int f(struct b b) { return b.x.x + b.x.y + b.x.z.x2 + b.y; }
int main(void) { struct b v = { { { 1, { 2, { 3 } } } }, 4 }; word w = { { { 5, 0 } } }; w.both += 1; word *p = &w; return f(v) + (*p).low + (int)sizeof p->both; }
