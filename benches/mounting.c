// Does in plain C what mounting does over an array of five members: it syncs and reads the headers, the head and the slot, reads
// the ring's records in windows of 64 KiB, checks each header and code, and keeps an item for each record.
#include <fcntl.h>
#include <stdint.h>
#include <stdio.h>
#include <stdlib.h>
#include <string.h>
#include <sys/stat.h>
#include <unistd.h>

#define WINDOW 65536

struct item {
  uint64_t time, off, prev;
  uint32_t block;
  uint16_t plen, slen;
};

static unsigned char window[WINDOW], cell[128];

static uint64_t get(const unsigned char *bytes, int len) {
  uint64_t value = 0;
  for (int i = 0; i < len; i++) {
    value = value << 8 | bytes[i];
  }
  return value;
}

// Whether the bytes are the code of a block.
static int is_code(const unsigned char *in, size_t len, size_t size) {
  size_t at = 0, done = 0;
  while (done < size) {
    if (at + 4 > len) {
      return 0;
    }
    size_t zeros = get(in + at, 2), literal = get(in + at + 2, 2);
    if (at + 4 + literal > len || done + zeros + literal > size) {
      return 0;
    }
    const unsigned char *bytes = in + at + 4;
    int is_last = done + zeros + literal == size;
    if (literal == 0 ? !is_last || zeros == 0 : zeros < 4 && at != 0) {
      return 0;
    }
    if (literal > 0 && (bytes[0] == 0 || bytes[literal - 1] == 0)) {
      return 0;
    }
    int run = 0;
    for (size_t i = 0; i < literal; i++) {
      run = bytes[i] == 0 ? run + 1 : 0;
      if (run == 4) {
        return 0;
      }
    }
    at += 4 + literal;
    done += zeros + literal;
  }
  return at == len;
}

int main(void) {
  unsigned char header[64];
  int log = open("log.trap", O_RDWR);
  if (log < 0 || fdatasync(log) != 0 || pread(log, header, 64, 0) != 64 || pread(log, cell, 128, 64) != 128) {
    return 6;
  }
  unsigned members = header[13];
  size_t size = get(header + 15, 2), volume = get(header + 17, 4) * (members - 1);
  uint64_t entries = get(header + 23, 4), ring = get(header + 27, 8), start = 192 + 12 + 2 * size;
  const unsigned char *head = cell[1] == (cell[65] + 1) % 3 ? cell + 2 : cell + 66;
  uint64_t first = get(head + 6, 8), off = get(head + 22, 8), last = get(head + 30, 8), end = get(head + 38, 8), now = get(head + 14, 8);
  struct item *items = malloc(entries * sizeof *items);
  uint64_t *newest = calloc(volume, sizeof *newest);
  if (!items || !newest) {
    return 10;
  }
  size_t have = 0, at = 0;
  uint64_t read_to = off;
  for (uint64_t seq = first + 1; seq <= last; seq++) {
    for (;;) {
      const unsigned char *record = window + at;
      size_t left = have - at;
      if (left >= 26 && left >= 26 + get(record + 22, 2) + get(record + 24, 2)) {
        break;
      }
      memmove(window, record, left);
      at = 0;
      size_t more = WINDOW - left;
      if (more > end - read_to) {
        more = end - read_to;
      }
      if (more > ring - read_to % ring) {
        more = ring - read_to % ring;
      }
      if (more == 0 || pread(log, window + left, more, start + read_to % ring) != (ssize_t)more) {
        return 4;
      }
      read_to += more;
      have = left + more;
    }
    const unsigned char *record = window + at;
    uint64_t time = get(record + 10, 8), block = get(record + 18, 4), parity = get(record + 22, 2), snapshot = get(record + 24, 2);
    if (record[0] != 1 || record[1] != 0 || get(record + 2, 8) != seq || time < now || block >= volume || parity < 4 ||
        parity > size + 7 || snapshot != 0 || !is_code(record + 26, parity, size)) {
      return 4;
    }
    items[seq - first - 1] = (struct item){time, off, newest[block], block, parity, snapshot};
    newest[block] = seq;
    now = time;
    off += 26 + parity;
    at += 26 + parity;
  }
  for (unsigned member = 0; member < members; member++) {
    char name[16];
    struct stat info;
    unsigned char own[16];
    sprintf(name, "m%02u.trap", member);
    int disk = open(name, O_RDWR);
    if (disk < 0 || fstat(disk, &info) != 0 || fdatasync(disk) != 0 || pread(disk, own, 16, 0) != 16 || memcmp(own, "TRPM", 4) != 0) {
      return 5;
    }
  }
  return off == end ? 0 : 4;
}
