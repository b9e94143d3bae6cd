//! uses compound literals
//! fault undefined clause=6.5p7 reason=type line=5
int main(void) {
  int n = 1;
  short *s = (short *)(int[]){ n, 2 }; return s[0] +
    s[1];
}
