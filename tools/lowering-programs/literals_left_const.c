//! left a const literal whose values are no constants
int main(void) { int n = 1; const int *p = (const int[]){ n }; return *p; }
