/* Clean: strings are read up to their ends, wherever literals lie. */
unsigned long strlen(const char *);
int strcmp(const char *, const char *);

int main(void) {
  const char *words[3] = {"one", "two", "three"};
  unsigned long length = 0;
  int before = 0;
  for (int i = 0; i < 3; i++) {
    length += strlen(words[i]);
    before += strcmp(words[i], "two") < 0;
  }
  return (int)length * 10 + before;
}
