//! left of a const object
int main(void) { int n = 1; if (n) goto out; const int k = 2; n = k; out: return n; }
