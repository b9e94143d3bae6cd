//! uses formats of sprintf
//! fault undefined clause=6.2.4p2 reason=ended line=5
#include <stdio.h>
#include <stdlib.h>
int main(void) { char b[40]; void *p = malloc(3); sprintf(b, "%p", p); free(p); return sprintf(b, "%p", p); }
