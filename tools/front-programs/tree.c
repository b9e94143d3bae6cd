/* Words counted in a binary tree. */
#include <ctype.h>
#include <stdio.h>
#include <stdlib.h>
#include <string.h>

struct word {
  char *text;
  unsigned count;
  struct word *left, *right;
};

static struct word *made(const char *text) {
  struct word *word = calloc(1, sizeof *word);
  if (!word || !(word->text = malloc(strlen(text) + 1)))
    exit(EXIT_FAILURE);
  strcpy(word->text, text);
  return word;
}

static struct word *counted(struct word *words, const char *text) {
  if (!words)
    words = made(text);
  int order = strcmp(text, words->text);
  if (order < 0)
    words->left = counted(words->left, text);
  else if (order > 0)
    words->right = counted(words->right, text);
  else
    words->count++;
  return words;
}

static void show_and_free(struct word *words) {
  if (!words)
    return;
  show_and_free(words->left);
  printf("%s %u\n", words->text, words->count);
  show_and_free(words->right);
  free(words->text);
  free(words);
}

int main(void) {
  char text[] = "The cat saw the dog, and the dog saw the cat.";
  struct word *words = NULL;
  for (char *at = text; *at; at++)
    *at = (char)tolower((unsigned char)*at);
  for (char *word = strtok(text, " .,"); word; word = strtok(NULL, " .,"))
    words = counted(words, word);
  show_and_free(words);
  return 0;
}
