//! uses main's parameters
//! fault undefined clause=6.5p5 reason=overflow line=11
int
main
(
  int argc,
  char *
  argv[]
)
{ int most = 2147483647; return
  argc +
  most; }
