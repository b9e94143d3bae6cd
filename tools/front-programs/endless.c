/* Collatz's sequence with a slip: 3 n - 1 comes back to 5, and never to 1. */
int main(void) {
  unsigned number = 5;
  while (number != 1)
    number = number % 2 ? 3 * number - 1 : number / 2;
  return 0;
}
