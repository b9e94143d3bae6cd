/* The cast takes the qualifier off the pointer and not off the object: writing
   a const object is undefined (C17 6.7.3p6). */
const int limit = 10;

int main(void) {
  int *p = (int *)&limit;
  *p = 11;
  return limit;
}
