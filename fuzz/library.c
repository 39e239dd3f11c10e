/*
** A libFuzzer target for the C library.
**
** The first two bytes of the input say how much room there is, and the kind of receiver. Then follow the calls: one byte names the call.
** For a feed, three more bytes say how many bits each lane has, and the bytes of the lanes follow.
**
** No input may break these rules:
**
**   - Each call returns a status that the state of the handle allows.
**   - What a call says that it wrote is within the room.
**   - Events are in the order of their columns. If lanes may lose bits, this holds within an epoch.
**   - The data of the events follow each other in the buffer.
**   - A feed takes no more bits than it is given.
**
**     clang -g -O1 -fsanitize=fuzzer,address,undefined -I library fuzz/library.c DIR/libvabgrot.a -o fuzzer && ./fuzzer -max_total_time=60
*/
#include <stdlib.h>
#include <string.h>

#include <vabgrot.h>

enum { OPEN, FEED, FINISH, RESTART, CLOSE, CALLS, MOST_EVENTS = 600, MOST_BYTES = 16000 };

int LLVMFuzzerTestOneInput(const uint8_t *data, size_t size);

struct state {
  vabgrot receiver;
  int is_open, is_finished, may_slip;
  uint64_t column;
  vabgrot_event *events;
  uint8_t *bytes;
  size_t event_room, byte_room;
};

static void need(int holds) {
  if (!holds) abort();
}

/* Checks what a call says that it wrote. */
static void check_events(struct state *it, const vabgrot_answer *answer) {
  uint64_t end = 0;
  need(answer->events <= it->event_room && answer->bytes <= it->byte_room);
  for (uint64_t i = 0; i < answer->events; i++) {
    const vabgrot_event *event = &it->events[i];
    const int ends = event->kind == VABGROT_SLIP || event->kind == VABGROT_RELOCKED;
    need(event->kind <= (it->may_slip ? VABGROT_RELOCKED : VABGROT_GUARD) && event->offset == end && (ends || event->column >= it->column));
    need(!ends || (event->column == 0 && event->size == 0));
    need(event->kind != VABGROT_LINE || (event->size % 3 == 0 && event->size >= 3 && event->size <= 12288));
    need(event->kind != VABGROT_PACKET || event->size == 63);
    it->column = event->column;
    end += event->size;
  }
  need(end == answer->bytes);
}

/* Feeds the bits of three lanes. Returns how many bytes of the input it used. */
static size_t feed(struct state *it, const uint8_t *data, size_t size) {
  uint64_t bits[3], taken[3];
  uint8_t *lanes[3];
  size_t sizes[3], used = 3;
  vabgrot_answer answer;
  if (size < 3) return size;
  for (int i = 0; i < 3; i++) {
    bits[i] = data[i] < 128 ? 8U * data[i] : data[i] - 128U;
    sizes[i] = (size_t)((bits[i] + 7) / 8);
    if (sizes[i] > size - used) {
      sizes[i] = size - used;
      bits[i] = 8 * sizes[i];
    }
    lanes[i] = malloc(sizes[i] > 0 ? sizes[i] : 1); /* no byte more, so that a read past the end is seen */
    need(lanes[i] != NULL);
    memcpy(lanes[i], data + used, sizes[i]);
    used += sizes[i];
  }
  const vabgrot_bits all = {bits[0], bits[1], bits[2]};
  const int status = vabgrot_feed(&it->receiver, lanes[0], sizes[0], lanes[1], sizes[1], lanes[2], sizes[2], &all, it->events,
                                  it->event_room, it->bytes, it->byte_room, &answer);
  need(status == VABGROT_OK || status == VABGROT_FULL || status == VABGROT_MISUSE);
  need(status == VABGROT_MISUSE || (it->is_open && !it->is_finished));
  taken[0] = answer.taken.blue;
  taken[1] = answer.taken.green;
  taken[2] = answer.taken.red;
  for (int i = 0; i < 3; i++) {
    need(taken[i] <= bits[i] && (status != VABGROT_OK || taken[i] == bits[i]) && (status != VABGROT_MISUSE || taken[i] == 0));
    free(lanes[i]);
  }
  check_events(it, &answer);
  return used;
}

static void finish(struct state *it) {
  vabgrot_answer answer;
  const int status = vabgrot_finish(&it->receiver, it->events, it->event_room, it->bytes, it->byte_room, &answer);
  const int may = it->is_open && !it->is_finished;
  const int is_short = it->may_slip ? it->event_room < 392 || it->byte_room < 12614 : it->event_room == 0;
  need(status == (!may ? VABGROT_MISUSE : is_short ? VABGROT_FULL : VABGROT_OK));
  check_events(it, &answer);
  if (status == VABGROT_OK) it->is_finished = 1;
}

int LLVMFuzzerTestOneInput(const uint8_t *data, size_t size) {
  struct state it = {VABGROT_INIT, 0, 0, 0, 0, NULL, NULL, 0, 0};
  size_t at = 2;
  if (size < 2) return 0;
  it.event_room = data[0] * MOST_EVENTS / 255;
  it.byte_room = data[1] * MOST_BYTES / 255;
  it.events = malloc((it.event_room + 1) * sizeof *it.events);
  it.bytes = malloc(it.byte_room + 1);
  need(it.events != NULL && it.bytes != NULL);
  const uint32_t kind = data[1] % (VABGROT_RELOCK + 1);
  it.may_slip = kind >= VABGROT_TRACK;
  need(vabgrot_open(&it.receiver, kind) == VABGROT_OK);
  it.is_open = 1;
  while (at < size) {
    const int call = data[at++] % (2 * CALLS);
    if (call == OPEN) {
      need(vabgrot_open(&it.receiver, kind) == (it.is_open ? VABGROT_MISUSE : VABGROT_OK));
      if (!it.is_open) it.is_finished = 0, it.column = 0;
      it.is_open = 1;
    } else if (call == FINISH) {
      finish(&it);
    } else if (call == RESTART) {
      need(vabgrot_restart(&it.receiver) == (it.is_open ? VABGROT_OK : VABGROT_MISUSE));
      it.is_finished = 0;
      it.column = 0;
    } else if (call == CLOSE) {
      need(vabgrot_close(&it.receiver) == VABGROT_OK);
      it.is_open = 0;
    } else {
      at += feed(&it, data + at, size - at);
    }
  }
  need(vabgrot_close(&it.receiver) == VABGROT_OK);
  free(it.events);
  free(it.bytes);
  return 0;
}
