/* goto is a word of C (C17 6.4.1p1) that is left out of the language. */
int main(void) {
  goto end;
end:
  return 0;
}
