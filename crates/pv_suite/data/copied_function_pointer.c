/* The bytes of a pointer to a function are copied like any others, and all of
   them together are that pointer again (C17 6.2.6.1p4, 7.24.2.1p2). */
void *memcpy(void *, const void *, unsigned long);

static int seven(void) {
  return 7;
}

int main(void) {
  int (*f)(void) = seven, (*g)(void);
  memcpy(&g, &f, sizeof f);
  return g();
}
