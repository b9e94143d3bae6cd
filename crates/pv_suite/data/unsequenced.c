/* The write of i++ and that of the assignment have no order (C17 6.5p2). */
int main(void) {
  int i = 0;
  i = i++ + 1;
  return i;
}
