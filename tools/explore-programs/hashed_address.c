/* A table of eight slots has an object's slot from its address, as an unsigned
   int. An address that doesn't fit can't be converted (C17 6.3.2.3p6). */
static int slots[8];

static int *slot_of(const char *name) {
  return &slots[(unsigned)name / 16 % 8];
}

int main(void) {
  const char *name = "name";
  *slot_of(name) = 1;
  return *slot_of(name);
}
