/* Line markers, as a preprocessor leaves them, say from which line of which
   file the next line came: reports name that line. The sum overflows
   (C17 6.5p5). */
# 7 "main.c"
int main(void) {
  return 2147483647 + 1;
}
