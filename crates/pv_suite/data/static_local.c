/* An object with static storage lives as long as the program, and keeps its
   value between calls (C17 6.2.4p3). */
static int *counter(void) {
  static int count = 40;
  count++;
  return &count;
}

int main(void) {
  int *first = counter();
  int *second = counter();
  return first == second ? *first : 0;
}
