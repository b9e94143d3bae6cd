/* A queue in a ring, as a structure that is handed round by its value. */
#include <stdbool.h>
#include <stdio.h>

enum { ROOM = 4 };

struct queue {
  int values[ROOM];
  unsigned first, count;
};

static bool put(struct queue *queue, int value) {
  if (queue->count == ROOM)
    return false;
  queue->values[(queue->first + queue->count++) % ROOM] = value;
  return true;
}

static int take(struct queue *queue) {
  int value = queue->values[queue->first++ % ROOM];
  queue->count--;
  return value;
}

static int sum(struct queue queue) {
  int result = 0;
  while (queue.count)
    result += take(&queue);
  return result;
}

int main(void) {
  struct queue queue = {{0}, 0, 0};
  for (int i = 1; put(&queue, i); i++)
    ;
  printf("%d ", take(&queue));
  printf("%d ", take(&queue));
  put(&queue, 9);
  printf("%d %u\n", sum(queue), queue.count);
  return 0;
}
