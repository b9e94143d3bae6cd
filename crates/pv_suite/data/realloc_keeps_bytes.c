/* realloc gives a new object with the old one's bytes: pointers among them
   still reach what they did, and the old object has ended (C17 7.22.3.5p2). */
void *malloc(unsigned long);
void *realloc(void *, unsigned long);
void free(void *);
int target = 21;

int main(void) {
  int **table = malloc(sizeof *table);
  int sum;
  *table = &target;
  table = realloc(table, 4 * sizeof *table);
  if (!table)
    return 1;
  table[1] = table[0];
  sum = *table[0] + *table[1];
  free(table);
  return sum;
}
