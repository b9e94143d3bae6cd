/* handler is set on one way alone, and called on every one: a pointer to a
   function without a value can't be used either (C17 6.3.2.1p2). */
static int yes(void) {
  return 1;
}

int main(void) {
  int answer = 0;
  int (*handler)(void);
  if (answer)
    handler = yes;
  return handler();
}
