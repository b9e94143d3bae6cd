/* exit ends the program from wherever it is called, with its argument for a
   status (C17 7.22.4.4p5). What was printed before is written. */
void exit(int);
int printf(const char *, ...);

static void leave(int depth) {
  if (depth == 3) {
    printf("leaving\n");
    exit(depth);
  }
  leave(depth + 1);
}

int main(void) {
  leave(0);
  return 0;
}
