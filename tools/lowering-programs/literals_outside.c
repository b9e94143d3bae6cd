//! uses compound literals
//! fault undefined clause=6.5.3.2p4 reason=outside line=3
static int third(const int *p) { return p[2]; }
static int *table = (int[]){ 1, 2 };
int main(void) { int n = 4;
  return third((int[]){ n, 1, 2 }) + third(table); }
