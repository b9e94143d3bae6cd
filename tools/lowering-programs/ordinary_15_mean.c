//! left the conversion %.2f
#include <stdio.h>
/* The mean of a list, which is a floating-point number. */
int main(void) { int list[] = { 1, 2, 4 }; int sum = 0; for (int i = 0; i < 3; i++) sum += list[i]; printf("%5d\n", sum); printf("%.2f\n", sum / 3.0); return 0; }
