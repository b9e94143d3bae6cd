/* A structure is assigned from a place that it shares some bytes with, and not
   all (C17 6.5.16.1p3). */
void *malloc(unsigned long);

struct three {
  int items[3];
};

int main(void) {
  int *items = malloc(4 * sizeof *items);
  struct three *low = (struct three *)items;
  struct three *high = (struct three *)(items + 1);
  int i;
  for (i = 0; i < 4; i++)
    items[i] = i;
  *low = *high;
  return 0;
}
