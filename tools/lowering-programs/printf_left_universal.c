//! left no plain literal
/* What a universal name is in the characters of a run is for the implementation to say (5.2.1, 6.4.3). */
#include <stdio.h>
int main(void) { return printf("%5d \u00e9\n", 1); }
