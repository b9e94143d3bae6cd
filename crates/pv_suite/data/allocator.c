/* An allocator over an array of cells. A cell is a union, and whatever type a
   member has may be used within it (C17 6.5p7). What it hands out may reach
   the whole array: it is one object. */
int printf(const char *, ...);

union cell {
  long number;
  union cell *next;
};

static union cell pool[4];
static union cell *unused;

static void begin(void) {
  int i;
  for (i = 0; i < 3; i++)
    pool[i].next = &pool[i + 1];
  pool[3].next = 0;
  unused = pool;
}

static long *take(void) {
  union cell *first = unused;
  if (!first)
    return 0;
  unused = first->next;
  return &first->number;
}

static void give(long *number) {
  union cell *first = (union cell *)number;
  first->next = unused;
  unused = first;
}

int main(void) {
  long *a, *b;
  begin();
  a = take();
  b = take();
  *a = 30;
  *b = 12;
  printf("%ld\n", *a + *b);
  give(a);
  printf("%d\n", take() == &pool[0].number);
  return 0;
}
