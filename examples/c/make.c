/*
** Makes the capture of a listing, as `vabgrot make link` does. With an option it does what `make dvi` or `make content` does.
**
**     make [--dvi | --content] FILE.link FILE.tmc [ROOM]
**
** It uses a buffer of ROOM bytes (1,048,576), or one of the size that the library asks for if that is too small. Exit status: 0; 2 if a
** file cannot be read or written; 3 if the listing is refused (standard error says why); 6 if memory ran out.
*/
#include <stdio.h>
#include <stdlib.h>
#include <string.h>

#include <vabgrot.h>

enum { DONE = 0, NO_FILE = 2, REFUSED = 3, NO_MEMORY = 6, ROOM = 1 << 20 };

/* Bytes in memory. */
struct bytes {
  uint8_t *at;
  size_t size;
};

/* All bytes of a file. `at` is NULL if it cannot be read. */
static struct bytes read_file(const char *path) {
  struct bytes all = {NULL, 0};
  size_t room = 4096, came = 0;
  FILE *file = fopen(path, "rb");
  if (!file) return all;
  do {
    all.size += came;
    if (all.size + 4096 > room) room *= 2;
    uint8_t *grown = realloc(all.at, room);
    if (!grown) break;
    all.at = grown;
    came = fread(all.at + all.size, 1, 4096, file);
  } while (came > 0);
  fclose(file);
  return all;
}

static int write_file(const char *path, struct bytes all) {
  FILE *file = fopen(path, "wb");
  if (!file) return NO_FILE;
  const size_t gone = fwrite(all.at, 1, all.size, file);
  return fclose(file) == 0 && gone == all.size ? DONE : NO_FILE;
}

/* Makes the capture in a buffer of `room` bytes. If these are too few, it tries again with as many as are needed. */
static int make(uint32_t kind, struct bytes listing, size_t room, const char *path) {
  static const vabgrot_tap whole = VABGROT_TAP;
  struct bytes capture = {malloc(room ? room : 1), 0};
  if (!capture.at) return NO_MEMORY;
  int status = vabgrot_make(kind, &whole, listing.at, listing.size, capture.at, room, &capture.size);
  if (status == VABGROT_FULL) {
    free(capture.at);
    return make(kind, listing, capture.size, path);
  }
  if (status == VABGROT_NOLISTING) {
    fwrite(capture.at, 1, capture.size < room ? capture.size : room, stderr);
    status = REFUSED;
  } else if (status == VABGROT_OK) {
    status = write_file(path, capture);
  } else {
    status = NO_MEMORY;
  }
  free(capture.at);
  return status;
}

int main(int count, char **words) {
  uint32_t kind = VABGROT_MAKE_LINK;
  if (count > 1 && strcmp(words[1], "--dvi") == 0) kind = VABGROT_MAKE_DVI;
  if (count > 1 && strcmp(words[1], "--content") == 0) kind = VABGROT_MAKE_CONTENT;
  const int first = kind == VABGROT_MAKE_LINK ? 1 : 2;
  if (count < first + 2) return NO_FILE;
  struct bytes listing = read_file(words[first]);
  if (!listing.at) return NO_FILE;
  const size_t room = count > first + 2 ? strtoull(words[first + 2], NULL, 10) : ROOM;
  const int status = make(kind, listing, room, words[first + 1]);
  free(listing.at);
  return status;
}
