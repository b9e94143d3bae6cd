//! left the format of sprintf is no plain literal
#include <stdio.h>
int main(void) { char b[9]; const char *f = "%d"; return sprintf(b, f, 1); }
