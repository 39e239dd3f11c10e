/*
** Writes a test pattern: the characters of a link with a small picture, one colour in each row. Each line of the output is a column: the
** characters of blue, green and red in hexadecimal. It can be the input of a serializer or of a simulated test bench.
**
**     pattern [COLUMNS [ROWS]]
**
** A row has COLUMNS pixels (8), at most 4,096. There are ROWS rows (4). HSYNC comes before each row, with a data island in it that has a
** Null packet. Exit status: 0; 1 if there is no such pattern.
*/
#include <stdio.h>
#include <stdlib.h>

#include <vabgrot.h>

enum { WIDTH = 8, HEIGHT = 4, MOST = 4096, PACKET = 63 };

/* Control values: HSYNC, and the preambles of a video period and of a data island with HSYNC. */
enum { QUIET = 0, HSYNC = 1, VIDEO_PREAMBLE = 4, ISLAND_PREAMBLE = 0x14 | HSYNC };

/* Room for the longest part. */
static uint16_t blue[MOST], green[MOST], red[MOST];

/* Prints the columns of a part that the library wrote, or returns 1 if it wrote none. */
static int print(int status, size_t columns) {
  if (status != VABGROT_OK) return 1;
  for (size_t i = 0; i < columns; i++) printf("%03x %03x %03x\n", (unsigned)blue[i], (unsigned)green[i], (unsigned)red[i]);
  return 0;
}

static int print_run(uint32_t value, uint32_t count) {
  size_t columns;
  const int status = vabgrot_encode_run(value, count, blue, MOST, green, MOST, red, MOST, &columns);
  return print(status, columns);
}

static int print_island_guard(uint32_t sync) {
  size_t columns;
  const int status = vabgrot_encode_island_guard(sync, blue, MOST, green, MOST, red, MOST, &columns);
  return print(status, columns);
}

/* Prints an island with a Null packet: its preamble, two guard columns, the packet, and two guard columns, all with HSYNC. */
static int print_island(void) {
  uint8_t packet[PACKET] = {0};
  size_t columns;
  for (int i = 31; i < PACKET; i++) packet[i] = HSYNC;
  if (print_run(ISLAND_PREAMBLE, 8) || print_island_guard(HSYNC) || print_island_guard(HSYNC)) return 1;
  const int status = vabgrot_encode_packet(packet, PACKET, true, blue, MOST, green, MOST, red, MOST, &columns);
  return print(status, columns) || print_island_guard(HSYNC) || print_island_guard(HSYNC);
}

/* Prints a row: its preamble, two guard columns and its pixels. */
static int print_row(const uint8_t *pixels, size_t size) {
  size_t columns;
  if (print_run(VIDEO_PREAMBLE, 8)) return 1;
  const int guard = vabgrot_encode_video_guard(blue, MOST, green, MOST, red, MOST, &columns);
  if (print(guard, columns)) return 1;
  const int status = vabgrot_encode_pixels(pixels, size, blue, MOST, green, MOST, red, MOST, &columns);
  return print(status, columns);
}

int main(int count, char **words) {
  static uint8_t pixels[3 * MOST];
  const unsigned long width = count > 1 ? strtoul(words[1], NULL, 10) : WIDTH;
  const unsigned long height = count > 2 ? strtoul(words[2], NULL, 10) : HEIGHT;
  if (width == 0 || width > MOST) return 1;
  for (unsigned long row = 0; row < height; row++) {
    for (size_t i = 0; i < 3 * width; i++) pixels[i] = (row + 1) >> i % 3 & 1 ? 255 : 0;
    if (print_run(QUIET, 12) || print_run(HSYNC, 12) || print_island() || print_run(HSYNC, 12)) return 1;
    if (print_run(QUIET, 12) || print_row(pixels, 3 * width)) return 1;
  }
  return print_run(QUIET, 12);
}
