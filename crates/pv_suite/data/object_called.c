/* An object is no function: what was written into an array can't be called,
   though it may be code for some processor (C17 6.5.3.2p4). */
union either {
  unsigned char *bytes;
  int (*function)(void);
};

int main(void) {
  unsigned char code[] = {0x31, 0xc0, 0xc3};
  union either pointer;
  pointer.bytes = code;
  return pointer.function();
}
