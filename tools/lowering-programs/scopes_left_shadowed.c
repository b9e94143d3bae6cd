//! left 'shared' is declared in another way too
int shared = 1;
int main(void) { int shared = 2; { extern int shared; return shared; } }
