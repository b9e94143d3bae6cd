/* The object ends with the call, and the value of each pointer to it becomes
   indeterminate. To hand such a pointer on is no use of it, to read it from p
   is one, with no access through it (C17 6.2.4p2). */
static int *local(void) {
  int number = 4;
  return &number;
}

int main(void) {
  int *p = local();
  int *q = p;
  return 0;
}
