//! uses goto
//! fault indeterminate line=10
int main(void) {
  int n = 0;
again: {
    int fresh;
    if (n == 0) fresh = 1;
    n++;
    if (n < 2) goto again;
    return fresh +
      n; }
}
