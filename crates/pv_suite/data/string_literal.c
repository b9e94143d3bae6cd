/* A string literal is not to be written, though its type has no const
   (C17 6.4.5p7). */
int main(void) {
  char *word = "cat";
  word[0] = 'b';
  return 0;
}
