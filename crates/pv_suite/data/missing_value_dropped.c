/* A function may end without its value where no caller uses it
   (C17 6.9.1p12). */
static int report(int n) {
  if (n < 0)
    return 1;
}

int main(void) {
  report(5);
  return 0;
}
