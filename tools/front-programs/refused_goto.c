void *malloc(unsigned long);
void free(void *);

int main(void) {
  int status = 1;
  char *first = malloc(4), *second = 0;
  if (!first)
    goto out;
  second = malloc(4);
  if (!second)
    goto out;
  status = 0;
out:
  free(first);
  free(second);
  return status;
}
