/* Also where there is room behind the block, realloc ends the old object: a
   pointer that was kept leads nowhere (C17 7.22.3.5p2, 6.2.4p2). */
void *malloc(unsigned long);
void *realloc(void *, unsigned long);

int main(void) {
  char *old = malloc(4);
  char *now = realloc(old, 8);
  now[0] = 1;
  return old[0];
}
