//! uses what main does not reach
//! defined
#include <stdio.h>
#include <string.h>
#include <ctype.h>
extern double cosine(double);
double *table_of_cosines(void);
int log_line(const char *, ...);
enum colours { RED, GREEN = 5, BLUE };
struct tree { struct tree *left, *right; int value; };
static struct tree leaves[] = {{0, 0, 1}, {0, 0, 2}};
static struct tree root = {&leaves[0], &leaves[1], BLUE};
static int total(struct tree *t) { return t ? t->value + total(t->left) + total(t->right) : 0; }
static double half(double x) { return x / 2; }
int main(void) {
  char word[] = "word";
  word[0] = toupper(word[0]);
  printf("%d %s %lu\n", total(&root), word, (unsigned long)strlen(word));
  return GREEN;
}
