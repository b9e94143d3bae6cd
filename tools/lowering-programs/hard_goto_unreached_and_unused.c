//! uses goto
//! defined
int main(void) {
  int n = 2;
unused:
  if (n) { inner: n++; }
  goto over;
  n = 100;
over: also: n *= 2;
  if (n < 20) goto also;
last: return n;
}
