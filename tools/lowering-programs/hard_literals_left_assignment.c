//! left a value with a side effect
struct s { int a; };
int main(void) { int i = 1; i = (struct s){ i++ }.a; return i; }
