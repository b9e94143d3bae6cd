/* A loop whose condition is missing goes on (C17 6.8.5.3p2). The run is cut off
   at its bound, 1000000 turns where --turns doesn't say. */
int main(void) {
  for (;;)
    ;
}
