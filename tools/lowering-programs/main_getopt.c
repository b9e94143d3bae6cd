//! uses main's parameters
//! args -v -o file rest
//! defined
#include <stdio.h>
static int verbose;
static const char *output = "none";
static int options(int argc, char **argv) {
  int at = 1;
  for (; at < argc && argv[at][0] == '-'; at++)
    switch (argv[at][1]) {
    case 'v': verbose++; break;
    case 'o': output = argv[++at]; break;
    default: return -1;
    }
  return at;
}
int main(int argc, char **argv) {
  int rest = options(argc, argv);
  printf("%d %s %d %s\n", verbose, output, rest, argv[rest]);
  return argc;
}
