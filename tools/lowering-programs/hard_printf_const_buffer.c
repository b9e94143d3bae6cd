//! uses formats of sprintf
//! fault undefined clause=6.7.3p6 reason=readonly line=5
#include <stdio.h>
static const char fixed[8] = "fixed";
int main(void) { return sprintf((char *)fixed, "%d", 1); }
