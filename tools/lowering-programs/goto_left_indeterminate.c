//! left a declaration that a jump may reach again
int main(void) {
  int n = 0;
again:;
  int x;
  if (n++ == 0) { x = 5; goto again; }
  return x + 1;
}
