//! uses formats of printf
//! uses initializers
//! defined
#include <stdio.h>
static const struct month { const char *name; int days; } months[12] = {
  { "Jan", 31 }, { "Feb", 28 }, { "Mar", 31 }, { .name = "Apr", .days = 30 }, "May", 31, [11] = { "Dec", 31 } };
static int is_leap(int y) { return y % 4 == 0 && (y % 100 || y % 400 == 0); }
static struct { int y, m, d; } from(int day, int year);
static int weekday(int y, int m, int d) { static const int t[] = { 0, 3, 2, 5, 0, 3, 5, 1, 4, 6, 2, 4 }; y -= m < 3; return (y + y / 4 - y / 100 + y / 400 + t[m - 1] + d) % 7; }
int main(void) {
  for (int i = 0; i < 12; i++) if (months[i].name) printf("%02d %-4s%3d%s\n", i + 1, months[i].name, months[i].days + (i == 1 && is_leap(2024)), i == 11 ? "." : ",");
  printf("%s%*d\n", "Mo Tu We", 3 * weekday(2024, 2, 29), 29);
  return 0;
}
