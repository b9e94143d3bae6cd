//! left the name 'x' stands before
int x = 3;
int main(void) { int n = 0; again: n += x; int x = 5; if (n < 9) goto again; return n + x; }
