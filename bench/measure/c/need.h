/* Ends the program with status 3 if a condition doesn't hold. */
#include <stdio.h>
#include <stdlib.h>

static void need(int holds, const char *what) {
  if (!holds) {
    fprintf(stderr, "%s\n", what);
    exit(3);
  }
}
