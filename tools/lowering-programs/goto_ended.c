//! uses goto
//! fault undefined clause=6.2.4p2 reason=ended line=12
int main(void) {
  int *p = 0;
  {
    int x = 5;
    p = &x;
    if (x) goto out;
    x = 6;
  }
out:
  return *p;
}
