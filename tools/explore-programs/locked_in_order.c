/* Two locks are taken in the order of their addresses. Where the second lies
   below the first, one of them is forgotten (C17 6.7.9p10). */
struct lock {
  int held;
};

static struct lock from;
static struct lock to;

int main(void) {
  struct lock *taken[2];
  if ((unsigned long)&from < (unsigned long)&to) {
    taken[0] = &from;
    taken[1] = &to;
  } else {
    taken[0] = &to;
  }
  for (int i = 0; i < 2; i++)
    taken[i]->held = 1;
  return from.held + to.held;
}
