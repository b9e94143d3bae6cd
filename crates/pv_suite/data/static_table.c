/* A static table is initialised before the run: a function's name is an
   address constant, with or without & (C17 6.6p9, 6.7.9p4), also where the
   function is defined later. An element without an initialiser is null. */
static int even(int), odd(int);

static int (*const step[3])(int) = {&odd, even};

static int even(int n) {
  return n == 0 ? 1 : step[0](n - 1);
}

static int odd(int n) {
  return n == 0 ? 0 : step[1](n - 1);
}

int main(void) {
  return even(4) * 10 + (step[2] == 0);
}
