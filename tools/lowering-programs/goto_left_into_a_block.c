//! left it leads into a block
int main(void) { int n = 0; goto in; { in: n++; } return n; }
