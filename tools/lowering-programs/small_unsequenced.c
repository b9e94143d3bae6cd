//! uses a switch without braces
//! uses a ; that ends nothing
//! fault undefined clause=6.5p2 reason=unsequenced line=9
struct s { int a;; int b; };;
int main(void) {
  int i = 1;
  switch (i)
  case 1:
    i = i++ + 1;
  return i;
}
