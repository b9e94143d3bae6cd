/* The least int divided by -1 is one more than the greatest (C17 6.5.5p6); the
   same goes for the rest of that division. */
int main(void) {
  int least = -2147483647 - 1;
  return least % -1;
}
