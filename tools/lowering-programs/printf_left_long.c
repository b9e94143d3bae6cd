//! left a wrong type for %ld
#include <stdio.h>
int main(void) { int n = 4; return printf("%5d %ld\n", n, n); }
