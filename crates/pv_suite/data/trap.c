/* A _Bool holds 0 or 1. Its byte may be set to 2 by a character, and then
   reading it as a _Bool is undefined (C17 6.2.6.1p5). */
int main(void) {
  _Bool flag = 1;
  unsigned char *byte = (unsigned char *)&flag;
  *byte = 2;
  return flag;
}
