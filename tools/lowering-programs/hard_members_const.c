//! uses members without a name
//! fault undefined clause=6.7.3p6 reason=readonly line=5
struct s { const struct { int a; }; int b; };
static const struct s fixed = { { 1 }, 2 };
int main(void) { *(int *)&fixed.a = 3; return fixed.b; }
