/* Between tag and number lie seven bytes of padding, and storing the members
   sets none of them (C17 6.2.6.1p6). Comparing whole structures reads them. */
int memcmp(const void *, const void *, unsigned long);

struct record {
  char tag;
  long number;
};

int main(void) {
  struct record a, b;
  a.tag = 'x';
  a.number = 1;
  b.tag = 'x';
  b.number = 1;
  return memcmp(&a, &b, sizeof a);
}
