//! uses _Static_assert
//! defined
#include <limits.h>
struct packet { unsigned char kind, length; unsigned short port; _Static_assert(CHAR_BIT == 8, "bytes"); int data[2]; };
_Static_assert(sizeof(struct packet) == 12, "no padding"
  " at all");
enum { A, B }; _Static_assert(B == 1, "");
int main(void) { _Static_assert(A == 0, ""); struct packet p = { 1, 2, 3 }; return p.kind + p.port + p.data[0]; }
