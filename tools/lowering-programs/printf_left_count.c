//! left fewer arguments than the format takes
#include <stdio.h>
int main(void) { return printf("%3d %d", 1); }
