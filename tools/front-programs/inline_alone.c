/* C17 has no definition of `next` here (6.7.4p7): another source would have to have it. */
int printf(const char *, ...);
#define ONE 1

inline int next(int number) {
  return number + ONE;
}

static inline int last(int number) {
  return number - ONE;
}

int main(void) {
  printf("%d %d\n", next(1), last(1));
  return 0;
}
