/* An int is given to a pointer without a cast (C17 6.7.9p11, 6.5.16.1p1). The
   source is refused, and nothing runs; one external declaration is sound. */
int x = 1;

int main(void) {
  int *p = x;
  return *p;
}
