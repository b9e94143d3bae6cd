//! uses main's parameters
//! args ab
//! fault undefined clause=6.5.3.2p4 reason=outside line=6
int main(int argc, char **argv)
{
  return argv[argc - 1][3];
}
