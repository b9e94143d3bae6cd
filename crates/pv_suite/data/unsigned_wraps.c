/* Arithmetic of unsigned types is modulo a power of two (C17 6.2.5p9). */
unsigned most = 4294967295u;

int main(void) {
  return most + 3;
}
