//! uses library functions as values
//! fault exit status=5
#include <stdlib.h>
static void leave(void (*how)(int), int n) { how(n); }
int main(void) { leave(exit, 5); return 1; }
