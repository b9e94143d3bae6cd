//! uses __func__
//! fault undefined clause=6.5.3.2p4 reason=outside line=4
static int last(void) {
  return __func__[sizeof __func__];
}
int main(void) { return last(); }
