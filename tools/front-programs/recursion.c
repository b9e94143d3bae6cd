/* Towers of Hanoi, and queens that don't attack each other. */
#include <stdbool.h>
#include <stdio.h>
#include <stdlib.h>

static unsigned moves;

static void move(int discs, char from, char to, char other) {
  if (discs == 0)
    return;
  move(discs - 1, from, other, to);
  if (discs == 3)
    printf("%c to %c\n", from, to);
  moves++;
  move(discs - 1, other, to, from);
}

static bool is_attacked(const int columns[], int row, int column) {
  for (int other = 0; other < row; other++)
    if (columns[other] == column || abs(columns[other] - column) == row - other)
      return true;
  return false;
}

static int queens(int columns[], int row) {
  int found = 0;
  if (row == 6)
    return 1;
  for (int column = 0; column < 6; column++)
    if (!is_attacked(columns, row, column)) {
      columns[row] = column;
      found += queens(columns, row + 1);
    }
  return found;
}

int main(void) {
  int columns[6];
  move(3, 'A', 'C', 'B');
  printf("%u moves, %d placings\n", moves, queens(columns, 0));
  return 0;
}
