//! left a label that stands in no block directly
int main(void) { int n = 1; switch (n) { case 1: goto two; case 2: two: n++; } return n; }
