//! left a wrong type for %lld
#include <stdio.h>
int main(void) { return printf("%lld", 1); }
