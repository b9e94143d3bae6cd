//! uses declarations in a block
//! fault indeterminate line=8
int main(void) {
  typedef enum { ONE = 1, TWO } number;
  {
    typedef unsigned char byte;
    byte b[TWO];
    return b[ONE] + 1;
  }
}
