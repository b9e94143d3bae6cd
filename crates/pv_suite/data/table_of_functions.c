/* The index says which function is called (C17 6.5.2.2p1). The table's elements
   are objects like any others, and one of them is replaced. */
static int add(int a, int b) {
  return a + b;
}

static int subtract(int a, int b) {
  return a - b;
}

static int multiply(int a, int b) {
  return a * b;
}

int main(void) {
  int (*operations[2])(int, int) = {add, subtract};
  int results = 0;
  for (int i = 0; i < 2; i++)
    results = results * 10 + operations[i](5, 3);
  operations[0] = multiply;
  return results * 100 + operations[0](5, 3);
}
