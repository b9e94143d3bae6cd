//! uses initializers
//! fault undefined clause=6.5.3.2p4 reason=outside line=5
struct name { char text[3]; };
static struct name names[] = { [1] = { "abc" }, [0].text = "ab" }; static struct name last = { { "xyz" } };
static int length(const char *s) { int n = 0; while (s[n]) n++; return n; }
int main(void) { return length(names[0].text) + length(last.text); }
