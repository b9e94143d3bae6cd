//! uses initializers
//! fault indeterminate line=7
int main(void) {
  int unset;
  int rows[2][2] = {
    1, 2, 3,
    unset };
  return rows[0][0];
}
