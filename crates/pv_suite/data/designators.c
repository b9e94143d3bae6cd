/* one, &one, *one and **one are the same pointer: a designator is replaced by
   the pointer to the function unless & or sizeof stands before it, and * makes
   a designator of it again (C17 6.3.2.1p4, 6.5.3.2p3, p4). */
static int one(void) {
  return 1;
}

int main(void) {
  int (*f)(void) = one;
  return one() + (&one)() + (*one)() + (**one)() + f() + (*f)() + (**f)();
}
