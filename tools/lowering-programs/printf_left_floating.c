//! left the conversion %f
int printf(const char *, ...);
int main(void) { return printf("%5d %f", 1, 2); }
