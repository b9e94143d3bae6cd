/* memcpy is not to be used where source and target share bytes
   (C17 7.24.2.1p2). */
void *memcpy(void *, const void *, unsigned long);
char line[8] = "abcdefg";

int main(void) {
  memcpy(line + 1, line, 6);
  return 0;
}
