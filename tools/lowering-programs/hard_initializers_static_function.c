//! uses initializers
//! defined
typedef int (*step)(int); typedef struct { step f; union { int n; char c; } u; } op;
static int inc(int n) { return n + 1; }
static int dec(int n) { return n - 1; }
static const op ops[] = { [1] = { dec, 5 }, [0] = { .f = &inc, .u = { .n = 7 } }, [2] = { inc, { 3 } } };
int main(void) { static int calls[][2] = { { 1 }, 2, 3 }; int s = calls[1][1]; for (unsigned i = 0; i < 3; i++) s += ops[i].f(ops[i].u.n); return s; }
