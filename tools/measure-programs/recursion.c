/* recursion (numbers of Fibonacci): 10 rounds */
int fib(int n) {
  if (n < 2)
    return n;
  return fib(n - 1) + fib(n - 2);
}

int main(void) {
  int s = 0;
  for (int r = 0; r < ROUNDS; r++)
    s = (s + fib(13 + r % 2)) % 100;
  return s;
}
