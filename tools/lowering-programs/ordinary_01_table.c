//! uses formats of printf
//! defined
#include <stdio.h>
#include <string.h>
/* A table of stock: columns by width, money by two integers. */
struct item { char name[16]; unsigned count; long cents; };
static const struct item stock[] = { { "bolts", 1200, 1999 }, { "nuts", 80, 350 }, { "washers", 15000, 5 } };
static void row(const struct item *it) {
  printf("%-10s %8u %6ld.%02ld\n", it->name, it->count, it->cents / 100, it->cents % 100);
}
int main(void) {
  size_t n = sizeof stock / sizeof *stock;
  long total = 0;
  printf("%-10s %8s %9s\n", "name", "count", "price");
  for (size_t i = 0; i < n; i++) { row(&stock[i]); total += stock[i].cents * stock[i].count; }
  printf("%zu items, %#lx, %+ld, %5.1s|\n", n, (unsigned long)total, total, "total");
  return 0;
}
