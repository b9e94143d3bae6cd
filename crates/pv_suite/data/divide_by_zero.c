/* No number is the quotient (C17 6.5.5p5). */
static int average(int sum, int count) {
  return sum / count;
}

int main(void) {
  return average(10, 0);
}
