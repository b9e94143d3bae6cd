static char NAME_get(const char *at) {
  if (!at)
    printf("%s", at);
  return *at ? *at : 0;
}
static const void *NAME_pointer(const struct one *one) { return one->p; }
static void NAME_put(char *at, char letter) { *at = letter; }
static void NAME_overlap(char *at) {
  *at = 0;
  memcpy(at, at, 1);
}
static void NAME_wrong(void) { printf("%d"); }
static int NAME(int mode, char *to, unsigned long size, const char *format, struct list given) {
  struct print print = {mode, 0, to, size, 0, given, NAME_get, NAME_pointer, NAME_put, NAME_overlap, NAME_wrong};
  return print_list(print, format);
}
