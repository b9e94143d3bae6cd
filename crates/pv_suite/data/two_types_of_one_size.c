/* long and long long have one size here and are two types: neither may be used
   to read the other (C17 6.5p7). */
long number = 5;

int main(void) {
  long *p = &number;
  long long *q = (long long *)p;
  return *q == 5;
}
