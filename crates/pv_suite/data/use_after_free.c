/* What free ended is gone for every pointer to it (C17 7.22.3p1, 6.2.4p2). */
void *malloc(unsigned long);
void free(void *);

int main(void) {
  int *p = malloc(sizeof *p);
  int *q = p;
  *p = 6;
  free(p);
  return *q;
}
