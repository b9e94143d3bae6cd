/* The objects that live at one time may take 2^24 bytes together, a choice of
   this executor (C17 5.2.4.1 asks for less); film takes one more. */
char film[16777217];

int main(void) {
  return 0;
}
