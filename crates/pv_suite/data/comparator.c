/* One sort for every order: the function that it is given tells which of two
   elements comes first. A parameter that is declared as a function is a pointer
   to one (C17 6.7.6.3p8), and is called as one (6.5.2.2p1). */
int printf(const char *, ...);

static int up(int a, int b) {
  return a - b;
}

static int down(int a, int b) {
  return b - a;
}

static void sort(int *at, int count, int compare(int, int)) {
  for (int i = 1; i < count; i++)
    for (int j = i; j > 0 && compare(at[j - 1], at[j]) > 0; j--) {
      int moved = at[j];
      at[j] = at[j - 1];
      at[j - 1] = moved;
    }
}

int main(void) {
  int numbers[] = {3, 1, 2};
  sort(numbers, 3, up);
  printf("%d %d %d\n", numbers[0], numbers[1], numbers[2]);
  sort(numbers, 3, down);
  printf("%d %d %d\n", numbers[0], numbers[1], numbers[2]);
  return 0;
}
