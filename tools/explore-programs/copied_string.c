/* A copy of a string is made, and nobody asks whether there was memory for it
   (C17 7.24.1p2); the other allocation is asked for. */
void *malloc(unsigned long);
void free(void *);
unsigned long strlen(const char *);
char *strcpy(char *, const char *);

static char *copy_of(const char *text) {
  return strcpy(malloc(strlen(text) + 1), text);
}

int main(void) {
  int *count = malloc(sizeof *count);
  if (!count)
    return 0;
  char *copy = copy_of("two words");
  *count = 2;
  free(copy);
  free(count);
  return 0;
}
