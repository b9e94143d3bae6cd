//! uses goto
//! fault undefined clause=6.2.4p2 reason=ended line=7
int main(void) {
  int *p = 0, n = 0;
again:
  while (n < 2) {
    if (n == 1) return *p;
    int x = n++;
    p = &x;
    goto again;
  }
  return 0;
}
