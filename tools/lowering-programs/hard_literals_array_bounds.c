//! uses compound literals
//! fault undefined clause=6.5.6p8 reason=outside line=5
int main(void) {
  int n = 2; int *end = (int[]){ n, 3 } + 2;
  return end[-1] + *(end + 1); }
