/* The old way to find a member's offset. It selects a member of the object
   that a null pointer points to, and there is none (C17 6.5.3.2p4). */
struct record {
  char tag;
  long number;
};

int main(void) {
  return (int)(unsigned long)&((struct record *)0)->number;
}
