/* Addresses begin at 0x1000 here, and the script puts x below: its lifetime
   can't begin (C17 6.2.4p2), and neither does the run. */
int x;

int main(void) {
  return 0;
}
