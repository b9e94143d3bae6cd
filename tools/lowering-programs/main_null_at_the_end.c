//! uses main's parameters
//! args one two
//! fault undefined clause=6.5.3.2p4 reason=null line=6
int main(int argc, char **argv) {
  char *last = argv[argc];
  return *last;
}
