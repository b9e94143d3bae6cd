/* A pointer to a function is an object with a size, eight bytes here; sizeof
   calls nothing, so step stays what it was (C17 6.5.3.4p2). */
static int steps;

static int step(void) {
  return ++steps;
}

int main(void) {
  int (*f)(void) = step;
  int (*both[2])(void) = {f, &step};
  int size = sizeof f + sizeof &step + sizeof both + sizeof f();
  return size * 10 + steps;
}
