//! left a declaration of several kinds
int main(void) { int second(void), n = 1; return n + second(); }
int second(void) { return 2; }
