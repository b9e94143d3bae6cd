/* An enumeration's constants are ints, counted on from the last one that is
   said (C17 6.7.2.2p3); a typedef names a type and makes none (6.7.8p3). */
typedef enum light { red = 1, amber, green = 10 } light;

static light next(light now) {
  return now == red ? green : now == green ? amber : red;
}

int main(void) {
  light now = red;
  now = next(now);
  now = next(now);
  return now + green;
}
