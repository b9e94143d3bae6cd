//! uses declarations in a block
//! fault undefined clause=6.2.4p2 reason=ended line=9
int main(void) {
  typedef struct { int n; } box;
  box *kept;
  for (int i = 0; i < 2; i++) {
    box b = { i };
    if (i == 0) kept = &b;
    else return kept->n;
  }
  return 0;
}
