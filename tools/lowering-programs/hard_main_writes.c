//! uses main's parameters
//! args abc
//! fault undefined clause=6.5.3.2p4 reason=outside line=5
int main(int argc, char **argv) { argv[1][3] = 'd';
  argv[1][4] = 0;
  return argc; }
