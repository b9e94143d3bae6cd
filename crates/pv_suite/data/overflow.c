/* The sum of two ints is an int, and 2147483648 is none (C17 6.5p5). */
int most = 2147483647;

int main(void) {
  int one = 1;
  return most
    + one;
}
