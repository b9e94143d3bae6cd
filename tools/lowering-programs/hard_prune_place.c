//! uses what main does not reach
//! fault undefined clause=6.4.5p7 reason=readonly line=6
static const char *unused = "first literal";
static char *kept = "kept"
  " text";
int main(void) { kept[0] = 'K'; return kept[0]; }
