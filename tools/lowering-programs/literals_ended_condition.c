//! uses compound literals
//! fault undefined clause=6.2.4p2 reason=ended line=8
int main(void) {
  int *p = 0, n = 3;
  while (*(p = &(int){ n }) > 0)
    n--;
  n =
    *p;
  return n;
}
