//! uses initializers
//! fault indeterminate line=11
struct { int a; struct { char b[2], c; } in; } outer;
int main(void) {
  char unset;
  char rows[][2] = {
    1, 2,
    unset, 4
  };
  if (rows[0][1] == 2)
    return rows[1][0];
  return rows[1][1];
}
