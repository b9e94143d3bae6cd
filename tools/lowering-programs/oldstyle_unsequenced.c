//! uses definitions of the old style
//! fault undefined clause=6.5p2 reason=unsequenced line=8
int add();
int main(void) {
  int i = 0;
  return
    add(i,
        i++);
}
int add(a, b)
  int a, b;
{ return a + b; }
