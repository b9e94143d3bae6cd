/* The script puts second where first has been. The pointer was made from
   first, which has ended, so that it leads nowhere (C17 6.2.4p2), whatever
   lies at the address now. */
int main(void) {
  int *p;
  {
    int first = 1;
    p = &first;
  }
  {
    int second = 2;
    second = second + *p;
  }
  return 0;
}
