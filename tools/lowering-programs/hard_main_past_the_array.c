//! uses main's parameters
//! args a b
//! fault undefined clause=6.5.3.2p4 reason=outside line=6
int main(int argc, char *argv[]) {
  char **at = argv + argc + 1;
  return *at == 0;
}
