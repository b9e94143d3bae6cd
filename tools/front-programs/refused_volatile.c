static volatile int flag = 1;

int main(void) {
  return flag;
}
