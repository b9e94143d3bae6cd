/* -1 becomes the greatest unsigned number where it meets one
   (C17 6.3.1.8p1). */
int main(void) {
  return -1 < 1u;
}
