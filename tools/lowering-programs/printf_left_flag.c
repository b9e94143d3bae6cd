//! left the conversion %#d
#include <stdio.h>
int main(void) { return printf("%#d", 1); }
