/* void * takes pointers to objects alone (C17 6.3.2.3p1): a pointer to a
   function is not converted to it. */
static int one(void) {
  return 1;
}

int main(void) {
  void *p = one;
  return p == 0;
}
