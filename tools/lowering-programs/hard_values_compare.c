//! uses library functions as values
//! defined
#include <stdlib.h>
#include <string.h>
typedef void (*dropper)(void *);
static void keep(void *p) { if (p) *(int *)p = 4; }
static int is_free(dropper d) { return d == free; }
int main(void) { dropper d[] = { free, keep, 0 }; int n = 0; d[1](&n); size_t (*len)(const char *) = n ? strlen : 0; return is_free(d[0]) * 2 + is_free(d[1]) + (int)len("four") + n; }
