//! left an argument whose type
/* 6.5.2.2p6: both types have the value of an argument of the other sign; an int has not this one. */
static int half(n) int n; { return n / 2; }
int main(void) { return half(3000000000u) < 0; }
