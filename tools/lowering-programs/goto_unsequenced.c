//! uses goto
//! fault undefined clause=6.5p2 reason=unsequenced line=7
int main(void) {
  int i = 0;
again:
  if (i < 3) { i++; goto again; }
  i = i++
    + 1;
  return i;
}
