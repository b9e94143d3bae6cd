/* The script says where functions lie as well, and each takes one byte: b right
   behind a. The union shows the numbers of the pointers to them (C17 6.5.2.3p3,
   6.2.6.1p4), since no cast makes an integer of one. */
union either {
  int (*function)(void);
  unsigned long number;
};

static int a(void) {
  return 1;
}

static int b(void) {
  return 2;
}

int main(void) {
  union either first, second;
  first.function = a;
  second.function = b;
  return (second.number - first.number) * 10 + (first.number == 0x100000000);
}
