/* The second call never gets to look at its block: since the first one the
   pointer's value is indeterminate, and to read the argument is a use of it
   (C17 6.2.4p2). */
void *malloc(unsigned long);
void free(void *);

int main(void) {
  int *p = malloc(sizeof *p);
  free(p);
  free(p);
  return 0;
}
