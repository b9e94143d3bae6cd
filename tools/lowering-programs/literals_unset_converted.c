//! uses compound literals
//! fault indeterminate line=7
int main(void) {
  char unset;
  int *p = (int[]){
    1,
    unset
  };
  return p[0];
}
