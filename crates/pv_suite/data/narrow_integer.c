/* The script puts x where no int can say it: an address that doesn't fit the
   integer type can't be converted (C17 6.3.2.3p6). */
int x = 1;

int main(void) {
  long fits = (long)&x;
  return (int)&x == fits;
}
