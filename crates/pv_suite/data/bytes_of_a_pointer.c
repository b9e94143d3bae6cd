/* A pointer is rebuilt from its bytes, one by one, and keeps what it may
   reach: each byte carries the provenance with it (C17 6.2.6.1p4). */
int x = 5;

int main(void) {
  int *from = &x;
  int *to;
  unsigned char *source = (unsigned char *)&from;
  unsigned char *target = (unsigned char *)&to;
  unsigned long i;
  for (i = 0; i < sizeof from; i++)
    target[i] = source[i];
  return *to;
}
