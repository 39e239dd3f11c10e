/*
** Lists what a capture carried, event by event, as `vabgrot recover link` does. With an option it does what `recover dvi`,
** `recover track` or `recover relock` does.
**
**     listing [--dvi | --track | --relock] FILE.tmc [BYTES [EVENTS [ROOM]]]
**
** It feeds the lanes in pieces of BYTES bytes each (4,096), into room for EVENTS events and ROOM bytes. Exit status: 0; 1 if there was
** a fault; 2 if the file cannot be opened; 3 if it is not a capture, or the room is too small; 6 if memory ran out; 7 if the lanes never
** aligned.
*/
#include <inttypes.h>
#include <stdio.h>
#include <stdlib.h>
#include <string.h>

#include <vabgrot.h>

enum { DONE = 0, FAULTY = 1, REFUSED = 3, NO_MEMORY = 6, UNALIGNED = 7, BLOCK = 4096 };

/* Three lanes in memory. */
struct lanes {
  uint8_t *bytes[3];
  uint64_t bits[3];
};

/* Room for events and their data, and whether one of them was a fault. */
struct room {
  vabgrot_event *events;
  uint8_t *bytes;
  size_t event_count;
  size_t byte_count;
  int faulty;
};

static void print_hex(const uint8_t *bytes, size_t count) {
  static const char digits[] = "0123456789abcdef";
  for (size_t i = 0; i < count; i++) {
    putchar(digits[bytes[i] >> 4]);
    putchar(digits[bytes[i] & 15]);
  }
}

static void print_packet(const uint8_t *bytes) {
  fputs("p ", stdout);
  print_hex(bytes, 3);
  for (int block = 0; block < 4; block++) {
    putchar(' ');
    print_hex(bytes + 3 + 7 * block, 7);
  }
  putchar(' ');
  for (int column = 0; column < 32; column++) putchar('0' + bytes[31 + column]);
  putchar('\n');
}

/* Prints a fault as a listing has it: its name, and its numbers. */
static void print_fault(const vabgrot_event *event) {
  static const char *const names[] = {"word",   "short",  "preamble", "noise", "empty",      "code",   "longline",
                                      "symbols", "mended", "lost",     "longisland", "broken", "guard"};
  printf("! %s ", names[event->kind - VABGROT_WORD]);
  switch (event->kind) {
    case VABGROT_WORD:
    case VABGROT_CODE:
      printf("%" PRIu32 " %" PRIu64 "\n", event->value, event->named);
      return;
    case VABGROT_SYMBOLS:
      printf("%" PRIu64 " %" PRIu64 "\n", event->named, event->count);
      return;
    case VABGROT_MENDED:
      printf("%" PRIu64 " %" PRIu32 " %" PRIu32 "\n", event->named, event->value, event->second);
      return;
    case VABGROT_LOST:
      printf("%" PRIu64 " %" PRIu32 "\n", event->named, event->value);
      return;
    default:
      printf("%" PRIu64 "\n", event->named);
  }
}

static void print_event(const vabgrot_event *event, const uint8_t *bytes) {
  const uint8_t *own = bytes + event->offset;
  switch (event->kind) {
    case VABGROT_RUN:
      printf("c %02" PRIx32 " %" PRIu64 "\n", event->value, event->count);
      return;
    case VABGROT_LINE:
      fputs("v ", stdout);
      print_hex(own, event->size);
      putchar('\n');
      return;
    case VABGROT_OPEN:
      printf("i %" PRIu32 "%" PRIu32 "\n", event->value, event->second);
      return;
    case VABGROT_PACKET:
      print_packet(own);
      return;
    case VABGROT_CLOSE:
      printf("e %" PRIu32 "%" PRIu32 "\n", event->value, event->second);
      return;
    case VABGROT_CUT:
      printf("cut %" PRIu64 "\n", event->named);
      return;
    case VABGROT_SLIP:
      printf("! slip %" PRIu32 " %" PRIu64 "\n", event->value, event->named);
      return;
    case VABGROT_RELOCKED:
      printf("! relock %" PRIu64 "\n", event->named);
      return;
    default:
      print_fault(event);
  }
}

static void print_all(struct room *room, const vabgrot_answer *answer) {
  for (uint64_t i = 0; i < answer->events; i++) {
    print_event(&room->events[i], room->bytes);
    room->faulty |= room->events[i].kind >= VABGROT_WORD;
  }
}

/* Feeds `count` bits of each lane from bit `at` on, or as many as the lane has. Feeds the rest again while the room is too small. */
static int feed(vabgrot *receiver, const struct lanes *lanes, uint64_t at, uint64_t count, struct room *room) {
  uint64_t from[3], left[3];
  int status;
  for (int i = 0; i < 3; i++) {
    from[i] = lanes->bits[i] < at ? lanes->bits[i] : at;
    left[i] = lanes->bits[i] - from[i] < count ? lanes->bits[i] - from[i] : count;
  }
  do {
    const vabgrot_bits bits = {left[0], left[1], left[2]};
    vabgrot_answer answer;
    status = vabgrot_feed(receiver, lanes->bytes[0] + from[0] / 8, (left[0] + 7) / 8, lanes->bytes[1] + from[1] / 8,
                          (left[1] + 7) / 8, lanes->bytes[2] + from[2] / 8, (left[2] + 7) / 8, &bits, room->events,
                          room->event_count, room->bytes, room->byte_count, &answer);
    const uint64_t taken[3] = {answer.taken.blue, answer.taken.green, answer.taken.red};
    if (status == VABGROT_FULL && taken[0] + taken[1] + taken[2] == 0) return status;
    print_all(room, &answer);
    for (int i = 0; i < 3; i++) {
      from[i] += taken[i];
      left[i] -= taken[i];
    }
  } while (status == VABGROT_FULL);
  return status;
}

static int list(uint32_t kind, const struct lanes *lanes, uint64_t piece, struct room *room) {
  vabgrot receiver = VABGROT_INIT;
  vabgrot_answer answer = {0, 0, {0, 0, 0}, 0, 0};
  uint64_t most = lanes->bits[0];
  int status = vabgrot_open(&receiver, kind);
  for (int i = 1; i < 3; i++) {
    if (lanes->bits[i] > most) most = lanes->bits[i];
  }
  for (uint64_t at = 0; status == VABGROT_OK && at < most; at += 8 * piece) {
    status = feed(&receiver, lanes, at, 8 * piece, room);
  }
  if (status == VABGROT_OK) {
    status = vabgrot_finish(&receiver, room->events, room->event_count, room->bytes, room->byte_count, &answer);
    print_all(room, &answer);
  }
  vabgrot_close(&receiver);
  if (status == VABGROT_NOMEM) return NO_MEMORY;
  if (status != VABGROT_OK) {
    fprintf(stderr, "listing: status %d\n", status);
    return REFUSED;
  }
  if (!answer.aligned) return UNALIGNED;
  puts("end");
  return room->faulty ? FAULTY : DONE;
}

static uint64_t high_first(const uint8_t *bytes) {
  return (uint64_t)bytes[0] << 24 | (uint64_t)bytes[1] << 16 | (uint64_t)bytes[2] << 8 | bytes[3];
}

/* Reads the lanes of a capture: its header, then its blocks of 4,096 bytes of each lane that has not ended. */
static int read_lanes(FILE *file, struct lanes *lanes) {
  uint8_t head[16];
  if (fread(head, 1, 8, file) != 8 || memcmp(head, "TMC", 3) != 0) return REFUSED;
  const int same = head[3] == '1';
  if (!same && (head[3] != '2' || fread(head + 8, 1, 8, file) != 8)) return REFUSED;
  size_t size[3], most = 0;
  for (int i = 0; i < 3; i++) {
    lanes->bits[i] = high_first(head + (same ? 4 : 4 + 4 * i));
    size[i] = (size_t)((lanes->bits[i] + 7) / 8);
    lanes->bytes[i] = malloc(size[i] + 1);
    if (lanes->bytes[i] == NULL) return NO_MEMORY;
    if (size[i] > most) most = size[i];
  }
  for (size_t at = 0; at < most; at += BLOCK) {
    for (int i = 0; i < 3; i++) {
      const size_t left = size[i] < at ? 0 : size[i] - at;
      const size_t count = left < BLOCK ? left : BLOCK;
      if (fread(lanes->bytes[i] + (size[i] < at ? size[i] : at), 1, count, file) != count) return REFUSED;
    }
  }
  return DONE;
}

static size_t number(int count, char **words, int place, size_t otherwise) {
  return place < count ? (size_t)strtoull(words[place], NULL, 10) : otherwise;
}

/* The kind of receiver that an option names: VABGROT_LINK if it names none. */
static uint32_t kind_of(const char *option) {
  if (strcmp(option, "--dvi") == 0) return VABGROT_DVI;
  if (strcmp(option, "--track") == 0) return VABGROT_TRACK;
  if (strcmp(option, "--relock") == 0) return VABGROT_RELOCK;
  return VABGROT_LINK;
}

int main(int count, char **words) {
  const uint32_t kind = count > 1 ? kind_of(words[1]) : VABGROT_LINK;
  count -= kind != VABGROT_LINK;
  words += kind != VABGROT_LINK;
  struct lanes lanes = {{NULL, NULL, NULL}, {0, 0, 0}};
  struct room room = {NULL, NULL, number(count, words, 3, VABGROT_QUICK_EVENTS), number(count, words, 4, VABGROT_QUICK_BYTES), 0};
  FILE *file = count > 1 ? fopen(words[1], "rb") : NULL;
  const size_t piece = number(count, words, 2, BLOCK);
  if (file == NULL || piece == 0) {
    fputs("usage: listing [--dvi | --track | --relock] FILE.tmc [BYTES [EVENTS [ROOM]]]\n", stderr);
    return 2;
  }
  int status = read_lanes(file, &lanes);
  fclose(file);
  room.events = malloc((room.event_count + 1) * sizeof *room.events);
  room.bytes = malloc(room.byte_count + 1);
  if (room.events == NULL || room.bytes == NULL) status = NO_MEMORY;
  if (status == DONE) status = list(kind, &lanes, piece, &room);
  for (int i = 0; i < 3; i++) free(lanes.bytes[i]);
  free(room.events);
  free(room.bytes);
  return status;
}
