/* Clean: an arena of characters gives places that are rounded up for what lies
   there, wherever the arena itself lies. */
void *memcpy(void *, const void *, unsigned long);

static char bytes[64];
static unsigned long used;

static char *taken(unsigned long size) {
  unsigned long past = ((unsigned long)bytes + used) % 8;
  used += past ? 8 - past : 0;
  char *place = bytes + used;
  used += size;
  return place;
}

int main(void) {
  long number = 5, read;
  char *first = taken(3);
  char *second = taken(sizeof number);
  first[0] = 2;
  memcpy(second, &number, sizeof number);
  memcpy(&read, second, sizeof read);
  return (int)read + first[0];
}
