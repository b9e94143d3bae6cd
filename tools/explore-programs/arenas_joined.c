/* Two blocks are taken for one where the second begins at the end of the first.
   Nothing goes wrong while they lie apart; side by side, the sum goes on from
   the first array into the second (C17 6.5.3.2p4). */
struct block {
  int *begin;
  int *end;
};

static int low[4];
static int high[4];

int main(void) {
  struct block block = {low, low + 4};
  struct block next = {high, high + 4};
  if (block.end == next.begin)
    block.end = next.end;
  int sum = 0;
  for (int *p = block.begin; p != block.end; p++)
    sum += *p;
  return sum;
}
