/* Which of the two calls comes first is not said, but one comes whole before
   the other (C17 6.5.2.2p10): no conflict, though both write count. */
static int count;

static int next(void) {
  count++;
  return count;
}

int main(void) {
  return next() + next();
}
