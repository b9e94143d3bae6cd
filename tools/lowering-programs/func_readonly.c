//! uses __func__
//! fault undefined clause=6.7.3p6 reason=readonly line=4
int main(void) {
  *(char *)__func__ = 'M';
  return 0;
}
