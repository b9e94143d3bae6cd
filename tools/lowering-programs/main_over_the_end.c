//! uses main's parameters
//! args a
//! fault undefined clause=6.5.6p8 reason=outside line=6
//! said a\n
int main(int argc, char *argv[]) { int printf(const char *, ...); printf("%s\n", argv[1]);
  return argv[argc + 2] != 0;
}
