/*
** Refuses each allocation of vabgrot_open in turn, for each kind, and counts those of all calls; and each of vabgrot_recover,
** vabgrot_check and vabgrot_make. The calls that lay parts of a link have none. Linked with --wrap=malloc, realloc and free.
*/
#include <stdio.h>
#include <stdlib.h>

#include <vabgrot.h>

void *__real_malloc(size_t size);
void *__real_realloc(void *block, size_t size);
void __real_free(void *block);
void *__wrap_malloc(size_t size);
void *__wrap_realloc(void *block, size_t size);
void __wrap_free(void *block);

static long held, asked, refused_at;
static size_t bytes;

void *__wrap_malloc(size_t size) {
  asked++;
  if (asked == refused_at) return NULL;
  held++;
  bytes += size;
  return __real_malloc(size);
}

void *__wrap_realloc(void *block, size_t size) {
  asked++;
  if (asked == refused_at) return NULL;
  return __real_realloc(block, size);
}

void __wrap_free(void *block) {
  if (block != NULL) held--;
  __real_free(block);
}

static int wrong(const char *what) {
  printf("%s: asked %ld, held %ld\n", what, asked, held);
  return 1;
}

static int try_kind(uint32_t kind) {
  static vabgrot_event events[VABGROT_LEAST_TRACK_EVENTS];
  static uint8_t room[VABGROT_LEAST_TRACK_BYTES];
  const uint8_t lane[] = {1, 2, 3, 4};
  const vabgrot_bits bits = {32, 32, 32};
  vabgrot_answer answer;
  vabgrot receiver = VABGROT_INIT;
  asked = 0;
  bytes = 0;
  if (vabgrot_open(&receiver, kind) != VABGROT_OK) return wrong("open");
  const long needed = asked;
  printf("kind %lu: %ld blocks of %zu bytes\n", (unsigned long)kind, needed, bytes);
  if (vabgrot_feed(&receiver, lane, 4, lane, 4, lane, 4, &bits, events, VABGROT_LEAST_TRACK_EVENTS, room, VABGROT_LEAST_TRACK_BYTES,
                   &answer) != VABGROT_OK &&
      answer.taken.blue != 8) {
    return wrong("feed");
  }
  if (vabgrot_restart(&receiver) != VABGROT_OK) return wrong("restart");
  if (vabgrot_finish(&receiver, events, VABGROT_LEAST_TRACK_EVENTS, room, VABGROT_LEAST_TRACK_BYTES, &answer) != VABGROT_OK) {
    return wrong("finish");
  }
  if (asked != needed) return wrong("a call after the opening allocates");
  if (vabgrot_close(&receiver) != VABGROT_OK || held != 0) return wrong("close");
  for (long at = 1; at <= needed; at++) {
    asked = 0;
    refused_at = at;
    if (vabgrot_open(&receiver, kind) != VABGROT_NOMEM || held != 0) return wrong("refused");
    refused_at = 0;
    if (vabgrot_open(&receiver, kind) != VABGROT_OK) return wrong("open after a refusal");
    if (vabgrot_close(&receiver) != VABGROT_OK || held != 0) return wrong("close after a refusal");
  }
  return 0;
}

/* A red pixel after a longer control period, from bit 7 on with skews of 0, 70 and 35. */
static const char capture_text[] =
    "544d433100000189a69a6aaaa9a69a6aaaa9a69a6aaaa9a69a6aaaa9a69a6aaaa9a69a6aaaa9a69a6aaaa9a69a6aaa99651620aaa9a69a"
    "6aaa01a69a6aaaa9a69a6aaaa9a69a6aaaa9a69a6aaaa95e65955556596595555699692680a8a69a6aaaa9a69a6aaaa9a69a6aaa01d554"
    "534d35d554534d35d554534d35d554534d35d554534d35d554534d35d554534d35b3cc024835d554534d35d554534d01";

static uint8_t capture[sizeof capture_text / 2];

/* Lists the capture by a kind, or its faults for a kind that there is not. */
static int list_capture(uint32_t kind, uint8_t *listing, size_t room, size_t *size) {
  if (kind > VABGROT_RELOCK) return vabgrot_check(capture, sizeof capture, listing, room, size);
  return vabgrot_recover(kind, capture, sizeof capture, listing, room, size);
}

static int try_listing(uint32_t kind) {
  uint8_t listing[4096];
  size_t size = 0;
  asked = 0;
  const int status = list_capture(kind, listing, sizeof listing, &size);
  const long needed = asked;
  if ((status != VABGROT_OK && status != VABGROT_FAULTY) || size == 0 || size > sizeof listing || held != 0) return wrong("list");
  for (long at = 1; at <= needed; at++) {
    asked = 0;
    refused_at = at;
    if (list_capture(kind, listing, sizeof listing, &size) != VABGROT_NOMEM || size != 0 || held != 0) return wrong("a refused listing");
    refused_at = 0;
  }
  return 0;
}

/* Listings of each kind of vabgrot_make. */
static const char *const listings[] = {
    "c 00 24\nc 04 8\nv ff0000\nc 00 12\nc 14 8\ni 00\np 000000 00000000000000 00000000000000 00000000000000 00000000000000 "
    "00000000000000000000000000000000\ne 00\nc 00 12\nend\n",
    "c 00 12\nv ff0000\nc 00 12\nend\n",
    "mode 1 1 1 30 1 1 1 2 0\nrow ff0000\nframe 1 1\nend\n",
};

static int try_making(uint32_t kind) {
  static const vabgrot_tap whole = VABGROT_TAP;
  const uint8_t *const listing = (const uint8_t *)listings[kind];
  uint8_t made[4096];
  size_t length = 0, size = 0;
  while (listing[length] != 0) length++;
  asked = 0;
  const int status = vabgrot_make(kind, &whole, listing, length, made, sizeof made, &size);
  const long needed = asked;
  if (status != VABGROT_OK || size == 0 || size > sizeof made || needed == 0 || held != 0) return wrong("make");
  for (long at = 1; at <= needed; at++) {
    asked = 0;
    refused_at = at;
    if (vabgrot_make(kind, &whole, listing, length, made, sizeof made, &size) != VABGROT_NOMEM || size != 0 || held != 0) {
      return wrong("a refused capture");
    }
    refused_at = 0;
  }
  return 0;
}

/* Lays a part by each call. */
static int try_encoding(void) {
  static const uint8_t bytes[63] = {0};
  uint16_t blue[32], green[32], red[32];
  size_t columns = 0;
  asked = 0;
  if (vabgrot_encode_run(0, 12, blue, 32, green, 32, red, 32, &columns) != VABGROT_OK || columns != 12) return wrong("run");
  if (vabgrot_encode_video_guard(blue, 32, green, 32, red, 32, &columns) != VABGROT_OK || columns != 2) return wrong("video guard");
  if (vabgrot_encode_pixels(bytes, 63, blue, 32, green, 32, red, 32, &columns) != VABGROT_OK || columns != 21) return wrong("pixels");
  if (vabgrot_encode_island_guard(3, blue, 32, green, 32, red, 32, &columns) != VABGROT_OK || columns != 1) return wrong("guard");
  if (vabgrot_encode_packet(bytes, 63, true, blue, 32, green, 32, red, 32, &columns) != VABGROT_OK || columns != 32) {
    return wrong("packet");
  }
  return asked == 0 && held == 0 ? 0 : wrong("a part of a link allocates");
}

int main(void) {
  for (size_t at = 0; at < sizeof capture; at++) {
    unsigned byte;
    if (sscanf(capture_text + 2 * at, "%2x", &byte) != 1) return wrong("the capture's digits");
    capture[at] = (uint8_t)byte;
  }
  for (uint32_t kind = VABGROT_LINK; kind <= VABGROT_RELOCK + 1; kind++) {
    if (try_listing(kind)) return 1;
  }
  for (uint32_t kind = VABGROT_MAKE_LINK; kind <= VABGROT_MAKE_CONTENT; kind++) {
    if (try_making(kind)) return 1;
  }
  for (uint32_t kind = VABGROT_LINK; kind <= VABGROT_RELOCK; kind++) {
    if (try_kind(kind)) return 1;
  }
  return try_encoding();
}
