//! uses formats of printf
//! uses compound literals
//! defined
#include <stdio.h>
#include <string.h>
#include <stdbool.h>
struct option { const char *name; union { long number; const char *text; }; bool is_text; };
struct request { const char *host; int port; struct { bool verbose, dry; } flags; };
static int send(struct request r) { return printf("%s:%04d %s %s\n", r.host, r.port, r.flags.verbose ? "verbose" : "quiet", r.flags.dry ? "dry" : "wet"); }
static void show(const struct option *o, size_t n) { for (size_t i = 0; i < n; i++) printf("%10s = %ld\n", o[i].name, o[i].number); }
int main(void) {
  int sent = send((struct request){ .host = "localhost", .port = 80 });
  sent += send((struct request){ .port = 8080, .host = "example", .flags = { .dry = true } });
  show((struct option[]){ { "depth", { 3 }, false }, { .name = "width" } }, 2);
  printf("%d\n", sent);
  return 0;
}
