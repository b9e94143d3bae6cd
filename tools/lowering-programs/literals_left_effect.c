//! left a value with a side effect
int f(int *p, int n) { return p[n]; }
int main(void) { int i = 0; int *p = (int[]){ i++, i++, 7 }; return f(p, 3); }
