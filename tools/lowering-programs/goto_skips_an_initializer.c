//! uses goto
//! fault indeterminate line=9
int main(void) {
  int n = 1;
  if (n) goto skip;
  int x = 5;
  n = x;
skip:
  return x + n;
}
