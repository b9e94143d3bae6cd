/* <time.h>: there is neither a clock nor a calendar, and each function says so as C17 lets it. */
#include <stdio.h>
#include <time.h>

int main(void) {
  time_t now = 5;
  struct tm parts = {0, 0, 0, 1, 0, 100, 0, 0, -1};
  struct timespec point = {0, 0};
  printf("%d %d\n", clock() == (clock_t)-1, CLOCKS_PER_SEC > 0);
  printf("%d", time(&now) == (time_t)-1);
  printf(" %d %d\n", now == (time_t)-1, time(NULL) == now);
  printf("%d %d\n", gmtime(&now) == NULL, localtime(&now) == NULL);
  printf("%d %d\n", mktime(&parts) == (time_t)-1, timespec_get(&point, TIME_UTC));
  return 0;
}
