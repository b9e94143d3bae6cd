/* An allocator over an array of characters, as many are written. The array has
   a declared type, so an int in it breaks the rule on types (C17 6.5p6, p7),
   though the place is aligned. */
static unsigned char pool[64];
static unsigned long used;

static void *take(unsigned long size) {
  void *block = pool + used;
  used += (size + 15) / 16 * 16;
  return block;
}

int main(void) {
  int *number = take(sizeof *number);
  *number = 5;
  return *number;
}
