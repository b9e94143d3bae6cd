/* A machine with a stack, whose program shows the powers of three below a thousand. */
#include <assert.h>
#include <stdio.h>

enum operation { PUSH, COPY, TIMES, LESS, SHOW, AGAIN, STOP };

static const int program[] = {PUSH, 1, COPY, SHOW, PUSH, 3, TIMES, COPY, PUSH, 1000, LESS, AGAIN, 2, STOP};

static int stack[4], *top = stack;

static void push(int value) {
  assert(top < stack + 4);
  *top++ = value;
}

static int pop(void) {
  assert(top > stack);
  return *--top;
}

static void combine(enum operation operation) {
  int right = pop(), left = pop();
  push(operation == TIMES ? left * right : left < right);
}

int main(void) {
  const int *next = program;
  for (;;) {
    enum operation operation = *next++;
    switch (operation) {
      case PUSH: push(*next++); break;
      case COPY: push(top[-1]); break;
      case TIMES: case LESS: combine(operation); break;
      case SHOW: printf("%d ", pop()); break;
      case AGAIN: next = pop() ? program + *next : next + 1; break;
      default: printf("\n"); return (int)(top - stack);
    }
  }
}
