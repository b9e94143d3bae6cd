//! uses formats of printf
//! uses initializers
//! defined
#include <stdio.h>
#include <ctype.h>
enum state { START, NUMBER, WORD, OTHER, STATES };
static const char *const names[STATES] = { [START] = "start", [WORD] = "word", [NUMBER] = "number", [OTHER] = "other" };
struct rule { enum state next[3]; int (*act)(int); };
static int keep(int n) { return n; }
static int add(int n) { return n + 1; }
static const struct rule rules[STATES] = {
  [START] = { .next = { NUMBER, WORD, START }, .act = keep },
  [NUMBER] = { .next = { NUMBER, OTHER, START }, .act = add },
  [WORD] = { .next = { WORD, WORD, START }, .act = add },
  [OTHER] = { .next = { OTHER, OTHER, START }, .act = keep },
};
int main(void) {
  enum state at = START; int counts[STATES] = { 0 };
  for (const char *s = "ab1 22 3x 4"; *s; s++) { at = rules[at].next[isdigit((unsigned char)*s) ? 0 : isalpha((unsigned char)*s) ? 1 : 2]; counts[at] = rules[at].act(counts[at]); }
  for (enum state i = START; i < STATES; i++) printf("%-8s|%3d\n", names[i], counts[i]);
  return 0;
}
