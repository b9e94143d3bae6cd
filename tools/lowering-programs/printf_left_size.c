//! left a wrong type for %zu
#include <stdio.h>
int main(void) { int n = 4; return printf("%zu\n", n); }
