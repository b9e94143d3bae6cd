/* A null pointer points to no function (C17 6.5.3.2p4): the third command was
   left out of the table. */
static int start(void) {
  return 1;
}

static int stop(void) {
  return 2;
}

static int (*commands[3])(void) = {start, stop};

int main(void) {
  int sum = 0;
  for (int i = 0; i < 3; i++)
    sum += commands[i]();
  return sum;
}
