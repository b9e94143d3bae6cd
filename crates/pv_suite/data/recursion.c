/* Each call has parameters of its own (C17 6.5.2.2p11, 6.2.4p6). */
int printf(const char *, ...);

static void move(int discs, char from, char to, char over) {
  if (discs == 0)
    return;
  move(discs - 1, from, over, to);
  printf("%c%c ", from, to);
  move(discs - 1, over, to, from);
}

int main(void) {
  move(3, 'A', 'C', 'B');
  printf("\n");
  return 0;
}
