//! uses compound literals
//! fault undefined clause=6.2.4p2 reason=ended line=8
int main(void) {
  int *p = 0, n = 1;
  if (n)
    p = (int[]){ n, 2 };
  n = 2;
  return p[1];
}
