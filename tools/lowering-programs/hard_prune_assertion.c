//! uses what main does not reach
//! defined
typedef struct { long a; double b; } hidden;
_Static_assert(sizeof(hidden) == 16, "layout");
static const char *const texts[] = { "a", "b" };
static const char **cursor;
int main(void) { return sizeof(int); }
