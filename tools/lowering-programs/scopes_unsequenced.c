//! uses declarations in a block
//! fault undefined clause=6.5p2 reason=unsequenced line=6
int main(void) {
  extern int shared;
  int get(void);
  return shared++ + get() + shared;
}
int shared;
int get(void) { return shared; }
