//! uses goto
//! fault undefined clause=6.5.5p5 reason=divide line=8
int main(void) {
  int n = 3;
again:
  n--;
  int q =
    6 / n;
  if (q < 7) goto again;
  return q + n * (n > 1 ? 0 : 1);
}
