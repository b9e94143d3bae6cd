/* Without memory the program works on two objects of its own, which it has
   otherwise not; where these lie side by side, it leaves the first one (C17
   6.5.3.2p4). The list of the first run says nothing of them. */
void *malloc(unsigned long);
void free(void *);

static int without_memory(void) {
  int number = 0, guard = 0;
  int *end = &number + 1;
  if (end == &guard)
    *end = 1;
  return number;
}

int main(void) {
  int *number = malloc(sizeof *number);
  if (!number)
    return without_memory();
  free(number);
  return 0;
}
