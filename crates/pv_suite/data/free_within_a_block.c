/* free takes the pointer that malloc gave, and none to a place behind it
   (C17 7.22.3.3p2). */
void *malloc(unsigned long);
void free(void *);

int main(void) {
  int *p = malloc(4 * sizeof *p);
  free(p + 1);
  return 0;
}
