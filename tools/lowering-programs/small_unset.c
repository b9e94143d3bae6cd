//! uses a switch without braces
//! uses a switch without braces
//! fault indeterminate line=9
static int f(int n) {
  register int unset;
  switch (n)
  default:
  case 3:
    return unset;
}
int main(void) { return f(3); }
