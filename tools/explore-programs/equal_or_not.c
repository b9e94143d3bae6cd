/* Clean: pointers to objects are compared for equality, and none of them is
   past an end, so places have no say. */
static int total(int *a, int *b) {
  if (a == b)
    return *a;
  return *a + *b;
}

int main(void) {
  int x = 1, y = 2;
  for (int i = 0; i < 3; i++) {
    int again = total(&x, &y);
    x = again - total(&y, &y);
  }
  return x;
}
