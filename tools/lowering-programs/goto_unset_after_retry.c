//! uses goto
//! fault indeterminate line=8
int main(void) {
  int tries = 0, value;
retry:
  if (tries++ < 2) goto retry;
  if (tries > 5) value = 1;
  return value +
    tries;
}
