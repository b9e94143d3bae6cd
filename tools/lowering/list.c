struct one {
  int kind;
  unsigned long n;
  const void *p;
  void (*f)(void);
};
struct list {
  int at, left;
  struct one all[MOST];
};
static const struct one *next(struct list *list, int at) {
  if (at >= list->left)
    return &list->all[MOST];
  list->at = at + 1;
  return &list->all[at];
}
