/* A function is no object: the union makes a pointer to characters of a pointer
   to a function, and leads to nothing that could be read (C17 6.5.3.2p4). */
union either {
  int (*function)(void);
  unsigned char *bytes;
};

static int one(void) {
  return 1;
}

int main(void) {
  union either pointer;
  pointer.function = one;
  return pointer.bytes[0];
}
