/*
** Checks the words of HDMI links as a simulation runs, with the receiver of libvabgrot, through DPI-C. link_checker.sv uses it, or a bench
** of yours. Each checker checks one link. Calls on different checkers may run at the same time. A DVI link needs VABGROT_DVI in the place
** of VABGROT_LINK.
*/
#include <inttypes.h>
#include <stdarg.h>
#include <stdint.h>
#include <stdio.h>
#include <stdlib.h>

#include <vabgrot.h>

/* Types of DPI-C: chandle is void *, int is int32_t, int unsigned is uint32_t, real is double, string is const char *. */
void *vabgrot_dpi_open(void);
int32_t vabgrot_dpi_tick(void *handle, uint32_t q0, uint32_t q1, uint32_t q2, double now);
int32_t vabgrot_dpi_finish(void *handle);
const char *vabgrot_dpi_message(void *handle);
void vabgrot_dpi_close(void *handle);

/* Columns are fed in pieces of PIECE, which are whole bytes. A checker keeps the times of the last TIMES ticks: twice the longest line. */
enum { PIECE = 256, PIECE_BYTES = 10 * PIECE / 8, TIMES = 8192 };

enum verdict { RUNNING = 0, FAILED = 1, PASSED = 2 };

struct checker {
  vabgrot receiver;
  enum verdict verdict;
  uint8_t lanes[3][PIECE_BYTES]; /* the piece that was not fed yet */
  uint64_t held;                 /* its columns */
  uint64_t ticks;                /* the columns so far */
  double times[TIMES];           /* of tick i at i % TIMES */
  uint64_t lines;
  uint64_t packets;
  char message[320];
  size_t said; /* characters of the message */
  vabgrot_event events[VABGROT_QUICK_EVENTS];
  uint8_t bytes[VABGROT_QUICK_BYTES];
};

static void say(struct checker *checker, const char *form, ...) {
  const size_t room = sizeof checker->message - checker->said;
  va_list words;
  va_start(words, form);
  const int count = vsnprintf(checker->message + checker->said, room, form, words);
  va_end(words);
  if (count > 0) checker->said += (size_t)count < room ? (size_t)count : room - 1;
}

/* Adds the line of a fault to the message, as `vabgrot check` writes it. */
static void say_line(struct checker *checker, const vabgrot_event *event) {
  static const char *const names[] = {"word",    "short",  "preamble", "noise",      "empty",  "code", "longline",
                                      "symbols", "mended", "lost",     "longisland", "broken", "guard"};
  say(checker, "! %s ", names[event->kind - VABGROT_WORD]);
  switch (event->kind) {
    case VABGROT_WORD:
    case VABGROT_CODE:
      say(checker, "%" PRIu32 " %" PRIu64, event->value, event->named);
      return;
    case VABGROT_SYMBOLS:
      say(checker, "%" PRIu64 " %" PRIu64, event->named, event->count);
      return;
    case VABGROT_MENDED:
      say(checker, "%" PRIu64 " %" PRIu32 " %" PRIu32, event->named, event->value, event->second);
      return;
    case VABGROT_LOST:
      say(checker, "%" PRIu64 " %" PRIu32, event->named, event->value);
      return;
    default:
      say(checker, "%" PRIu64, event->named);
  }
}

/* Adds the meaning of a fault to the message. */
static void say_words(struct checker *checker, const vabgrot_event *event) {
  static const char *const lanes[] = {"blue", "green", "red"};
  static const char *const blocks[] = {"body 0", "body 1", "body 2", "body 3", "the header"};
  static const char *const words[] = {
    "a character in a control column that is no control character",
    "fewer than twelve control columns before the period that opens here",
    "not the eight columns of its preamble before the period that opens here",
    "columns that open nothing",
    "a video period with no pixel, or an island with no packet, opens here",
    "the first character of this line that does not code its own byte",
    "more than 4,096 pixels in the video period that opens here",
    "characters of this packet that are no TERC4 characters",
    "a wrong bit in this packet",
    "more than one wrong bit in this packet",
    "the nineteenth packet of its island",
    "a packet or a closing guard that control columns cut short",
    "no guard column where one is due",
  };
  if (event->kind == VABGROT_WORD || event->kind == VABGROT_CODE) {
    say(checker, ", lane %" PRIu32 " (%s)", event->value, lanes[event->value]);
  }
  say(checker, ": %s", words[event->kind - VABGROT_WORD]);
  if (event->kind == VABGROT_SYMBOLS) say(checker, ", %" PRIu64 " of 96", event->count);
  if (event->kind == VABGROT_MENDED) say(checker, ", bit %" PRIu32 " of %s", event->second, blocks[event->value]);
  if (event->kind == VABGROT_LOST) say(checker, ", in %s", blocks[event->value]);
}

/*
** Fails at a fault. The number of columns says which column the last tick has. The message has no time if the column is more than TIMES
** ticks ago, for example in a line that never ends.
*/
static void fail_at(struct checker *checker, vabgrot_event event) {
  vabgrot_answer answer = {0, 0, {0, 0, 0}, 0, 0};
  vabgrot_finish(&checker->receiver, checker->events, VABGROT_QUICK_EVENTS, checker->bytes, VABGROT_QUICK_BYTES, &answer);
  const uint64_t tick = checker->ticks - answer.columns + event.named;
  checker->verdict = FAILED;
  say_line(checker, &event);
  say(checker, ": column %" PRIu64 ", tick %" PRIu64, event.named, tick);
  if (checker->ticks - tick <= TIMES) say(checker, ", time %.15g", checker->times[tick % TIMES]);
  say_words(checker, &event);
}

/* Counts the events up to the first fault. */
static void take(struct checker *checker, const vabgrot_answer *answer) {
  for (uint64_t i = 0; i < answer->events && checker->verdict == RUNNING; i++) {
    const vabgrot_event *event = &checker->events[i];
    checker->lines += event->kind == VABGROT_LINE;
    checker->packets += event->kind == VABGROT_PACKET;
    if (event->kind >= VABGROT_WORD) fail_at(checker, *event);
  }
}

/* Feeds the piece. The room is enough for a longer piece, so the receiver takes all of it. */
static void feed(struct checker *checker) {
  const uint64_t count = 10 * checker->held;
  const size_t size = (size_t)(count + 7) / 8;
  const vabgrot_bits bits = {count, count, count};
  vabgrot_answer answer = {0, 0, {0, 0, 0}, 0, 0};
  const int status = vabgrot_feed(&checker->receiver, checker->lanes[0], size, checker->lanes[1], size, checker->lanes[2], size, &bits,
                                  checker->events, VABGROT_QUICK_EVENTS, checker->bytes, VABGROT_QUICK_BYTES, &answer);
  for (int lane = 0; lane < 3; lane++) {
    for (size_t i = 0; i < size; i++) checker->lanes[lane][i] = 0;
  }
  checker->held = 0;
  if (status == VABGROT_OK) {
    take(checker, &answer);
  } else {
    checker->verdict = FAILED;
    say(checker, "vabgrot_feed returned %d", status);
  }
}

/* Adds a word of ten bits, bit 0 first, to the `held` words of a lane. */
static void put(uint8_t *lane, uint64_t held, uint32_t word) {
  const uint64_t place = 10 * held;
  word = (word & 0x3ff) << place % 8;
  lane[place / 8] |= (uint8_t)word;
  lane[place / 8 + 1] |= (uint8_t)(word >> 8);
}

/* Opens a checker. Returns NULL if memory ran out. */
void *vabgrot_dpi_open(void) {
  struct checker *checker = calloc(1, sizeof *checker);
  if (checker != NULL && vabgrot_open(&checker->receiver, VABGROT_LINK) != VABGROT_OK) {
    free(checker);
    return NULL;
  }
  return checker;
}

/*
** Takes a column: the words of lanes 0 (blue), 1 (green) and 2 (red), and the time of the simulation in any unit. Returns 1 from the first
** fault on, otherwise 0. It finds a fault at most PIECE columns after the column that decides it.
*/
int32_t vabgrot_dpi_tick(void *handle, uint32_t q0, uint32_t q1, uint32_t q2, double now) {
  struct checker *checker = handle;
  if (checker->verdict == RUNNING) {
    put(checker->lanes[0], checker->held, q0);
    put(checker->lanes[1], checker->held, q1);
    put(checker->lanes[2], checker->held, q2);
    checker->times[checker->ticks % TIMES] = now;
    checker->ticks++;
    checker->held++;
    if (checker->held == PIECE) feed(checker);
  }
  return checker->verdict == FAILED;
}

/* Ends the link. Returns 1 if there was a fault or the lanes never aligned, otherwise 0. */
int32_t vabgrot_dpi_finish(void *handle) {
  struct checker *checker = handle;
  vabgrot_answer answer = {0, 0, {0, 0, 0}, 0, 0};
  if (checker->verdict == RUNNING && checker->held > 0) feed(checker);
  if (checker->verdict != RUNNING) return checker->verdict == FAILED;
  vabgrot_finish(&checker->receiver, checker->events, VABGROT_QUICK_EVENTS, checker->bytes, VABGROT_QUICK_BYTES, &answer);
  checker->verdict = answer.aligned ? PASSED : FAILED;
  if (answer.aligned) {
    say(checker, "pass: %" PRIu64 " columns, %" PRIu64 " lines, %" PRIu64 " packets", answer.columns, checker->lines, checker->packets);
  } else {
    say(checker, "no alignment in %" PRIu64 " columns", checker->ticks);
  }
  return checker->verdict == FAILED;
}

/* Returns the line and the meaning of the fault, or after the end the size of the link. The text is valid until the checker is closed. */
const char *vabgrot_dpi_message(void *handle) {
  const struct checker *checker = handle;
  return checker->message;
}

void vabgrot_dpi_close(void *handle) {
  struct checker *checker = handle;
  vabgrot_close(&checker->receiver);
  free(checker);
}
