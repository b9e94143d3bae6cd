/* From a member back to the structure around it: the pointer may reach the
   whole object that it was made from, so that stepping back within it is
   defined (C17 6.5.6p8, 6.3.2.3p7). */
struct point {
  int x;
  int y;
};

static int x_beside(int *y) {
  char *bytes = (char *)y - sizeof(int);
  struct point *around = (struct point *)bytes;
  return around->x;
}

int main(void) {
  struct point here = {30, 12};
  return x_beside(&here.y);
}
