//! defined
static int value(void) { return 1; }
static int other(void) { return 2; }
struct s { int value; };
int main(void) { struct s other = { 5 }; return other.value; }
