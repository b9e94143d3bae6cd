//! defined
#include <stdio.h>
#include <stdlib.h>
struct cell { int value; struct cell *next; };
static struct cell *head, **tail = &head;
static void push(int v) { struct cell *c = malloc(sizeof *c); c->value = v; c->next = NULL; *tail = c; tail = &c->next; }
static int pop(void) { struct cell *c = head; int v = c->value; head = c->next; if (!head) tail = &head; free(c); return v; }
int main(void) { for (int i = 0; i < 5; i++) push(i * i); int s = 0; while (head) s = s * 3 + pop(); printf("%d\n", s); return 0; }
