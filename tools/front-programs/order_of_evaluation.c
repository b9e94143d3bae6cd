/* Which of the two is called first is left open (6.5p3): here it is the left one. Another compiler may print 21. */
#include <stdio.h>

static int said(int number) {
  printf("%d", number);
  return number;
}

int main(void) {
  int sum = said(1) + said(2);
  printf("\n");
  return sum;
}
