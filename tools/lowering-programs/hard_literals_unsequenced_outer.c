//! uses compound literals
//! fault undefined clause=6.5p2 reason=unsequenced line=6
struct s { int a; };
int main(void) {
  int i = 1;
  i = (struct s){ i }.a + i++;
  return i;
}
