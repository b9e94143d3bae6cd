//! uses compound literals
//! fault undefined clause=6.7.3p6 reason=readonly line=5
int main(void) {
  const int *p = (const int[]){ 1, 2 };
  *(int *)p = 3;
  return p[0];
}
