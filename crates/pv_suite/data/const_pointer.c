/* const on the way to an object that isn't const: taking it off by a cast and
   writing is defined (C17 6.7.3p6). */
int limit = 10;

int main(void) {
  const int *view = &limit;
  *(int *)view = 11;
  return *view;
}
