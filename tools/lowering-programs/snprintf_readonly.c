//! uses formats of snprintf
//! fault undefined clause=6.4.5p7 reason=readonly line=4
#include <stdio.h>
int main(void) { return snprintf("abc", 3, "%d", 42); }
