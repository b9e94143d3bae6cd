//! uses initializers
//! defined
int main(void) {
  int i = 1;
  int a[4] = { [0] = i++, [1] = i++, [3] = i };
  return a[0] + 10 * a[1] + 50 * a[3];
}
