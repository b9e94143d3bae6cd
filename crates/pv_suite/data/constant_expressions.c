/* Sizes of arrays, labels and static initialisers are reckoned before the
   program runs (C17 6.6p6, p9): they take no turn. */
enum { width = 4, area = width * width };

struct board {
  char cells[area];
  int *corner;
};

static struct board board = {{1, 2}, 0};
static int cells[sizeof(struct board) / 8];
static int *last = &cells[2] - 1;

int main(void) {
  switch (sizeof board.cells) {
  case area:
    return last == cells + 1;
  }
  return 9;
}
