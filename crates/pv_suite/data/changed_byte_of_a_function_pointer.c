/* As in copied_function_pointer, but one byte is changed on the way: the bytes
   spell another address then, at which no function begins, and there is nothing
   to call (C17 6.5.3.2p4). */
void *memcpy(void *, const void *, unsigned long);

static int seven(void) {
  return 7;
}

int main(void) {
  int (*f)(void) = seven, (*g)(void);
  unsigned char bytes[sizeof f];
  memcpy(bytes, &f, sizeof f);
  bytes[1] ^= 1;
  memcpy(&g, bytes, sizeof g);
  return g();
}
