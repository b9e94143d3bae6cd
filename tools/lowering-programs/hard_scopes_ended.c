//! uses declarations in a block
//! fault undefined clause=6.2.4p2 reason=ended line=5
int main(void) {
  int *p = 0;
  for (int i = 0; i < 2; i++) { typedef int local_number; local_number n = i; if (!p) p = &n; else
      return *p;
  } return 0; }
