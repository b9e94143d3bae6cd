/* A pointer to a function may be converted to any other type of pointer to a
   function, and back: then it calls again (C17 6.3.2.3p8). */
static int twice(int n) {
  return n * 2;
}

int main(void) {
  void (*kept)(void) = (void (*)(void))twice;
  int (*back)(int) = (int (*)(int))kept;
  return (back == twice) * 100 + back(7);
}
