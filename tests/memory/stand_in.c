/* A stand-in for the program: `harness` knows what becomes of it where each of its requests for memory fails. */
#include <stdlib.h>
#include <string.h>
#include <unistd.h>

#define SECTION "# batch 1\n1\n"

static int say(int file, const char *text) { return write(file, text, strlen(text)) < 0; }

static int refused(void) { return say(2, "basin: want of memory\n") ? 4 : 5; }

int main(void) {
  void *block = malloc(1);
  if (!block) return refused();
  if (!calloc(1, 2) && !malloc(1)) return refused(); /* it does without, unless that fails, too */
  say(1, SECTION);
  block = realloc(block, 3); /* behind a whole section */
  if (!block) return refused();
  say(1, "# batch 2\n");
  if (!malloc(4)) return refused(); /* within one */
  say(1, malloc(5) ? "2\n" : "3\n");
  if (!malloc(6)) abort();
  if (!malloc(7)) return say(2, "none\n");
  return 0;
}
