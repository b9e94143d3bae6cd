/* A comment that has no end is no comment (C17 6.4.9p1): the fault lies where
   it begins. */
int main(void) {
  return 0; /* here
}
