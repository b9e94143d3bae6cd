/* Primes below 100, a bit for each number. */
#include <limits.h>
#include <stdio.h>

enum { END = 100, WORD = CHAR_BIT * sizeof(unsigned long) };

static unsigned long crossed[END / WORD + 1];

int main(void) {
  for (unsigned n = 2; n < END; n++) {
    if (crossed[n / WORD] >> n % WORD & 1)
      continue;
    printf("%u ", n);
    for (unsigned multiple = n * n; multiple < END; multiple += n)
      crossed[multiple / WORD] |= 1ul << multiple % WORD;
  }
  printf("\n");
  return 0;
}
