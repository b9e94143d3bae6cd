/* Two pointers to one function are equal, and pointers to two functions are
   not, even where both do the same (C17 6.5.9p6). */
static int one(void) {
  return 1;
}

static int also_one(void) {
  return 1;
}

int main(void) {
  int (*f)(void) = one, (*g)(void) = &one;
  return (f == g) * 100 + (f == also_one) * 10 + (f != 0);
}
