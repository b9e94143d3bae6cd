/* A member of a union may be read though another was written: its value is
   what the bytes spell (C17 6.5.2.3p3, 6.2.6.1p7), the lowest one first. */
union view {
  unsigned number;
  unsigned char bytes[4];
};

int main(void) {
  union view v;
  v.number = 0x01020304u;
  return v.bytes[0] * 10 + v.bytes[3];
}
