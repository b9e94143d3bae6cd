/* A function shares no byte with an object: the script puts get, to which a
   pointer is made, at the last byte of x. */
static int x = 1;

static int get(void) {
  return x;
}

static int (*const getter)(void) = get;

int main(void) {
  return getter();
}
