/* Arguments are not put in order by the commas between them (C17 6.5.2.2p10):
   one writes i and the other reads it (6.5p2). */
static int sum(int a, int b) {
  return a + b;
}

int main(void) {
  int i = 1;
  return sum(i++, i);
}
