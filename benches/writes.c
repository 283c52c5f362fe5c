// Does in plain C what a session does for `W` lines over blocks of 4096 bytes: it reads the digits, reads the old block and
// its row's parity, codes the change, and makes the same writes and syncs as an array with five members. The files are
// those of an array, and hold none afterwards.
#include <fcntl.h>
#include <stdio.h>
#include <string.h>
#include <unistd.h>

#define SIZE 4096

static char input[65536], line[SIZE * 2 + 64];
static unsigned char fresh[SIZE], old[SIZE], change[SIZE], row[SIZE], coded[26 + SIZE + 7], slot[12 + 2 * SIZE], values[256];
static int disks[6];

static size_t put(unsigned char *out, size_t end, size_t zeros, const unsigned char *literal, size_t len) {
  out[end] = zeros >> 8;
  out[end + 1] = zeros & 255;
  out[end + 2] = len >> 8;
  out[end + 3] = len & 255;
  memcpy(out + end + 4, literal, len);
  return end + 4 + len;
}

static size_t code(const unsigned char *in, size_t size, unsigned char *out) {
  size_t at = 0, end = 0;
  while (at < size) {
    size_t start = at;
    while (start < size && in[start] == 0) {
      start++;
    }
    size_t stop = start, zeros = 0;
    while (stop < size && zeros < 4) {
      zeros = in[stop] == 0 ? zeros + 1 : 0;
      stop++;
    }
    size_t last = stop - zeros;
    end = put(out, end, start - at, in + start, last - start);
    at = last;
  }
  return end;
}

static int write_at(int disk, const void *bytes, size_t len, off_t at) {
  return pwrite(disks[disk], bytes, len, at) == (ssize_t)len;
}

// The head's value in one of the two places, and the three syncs of its gate.
static int put_head(off_t at) {
  unsigned char value[62] = {1};
  return write_at(0, value, 1, at) && fdatasync(disks[0]) == 0 && write_at(0, value, 1, at + 1) &&
         write_at(0, value, 62, at + 2) && fdatasync(disks[0]) == 0 && write_at(0, value, 1, at) && fdatasync(disks[0]) == 0;
}

static int do_write(size_t len, unsigned long number) {
  unsigned long time, block;
  int digits = 0;
  if (sscanf(line, "W %lu %lu %n", &time, &block, &digits) != 2 || len - digits != 2 * SIZE) {
    return 0;
  }
  for (int i = 0; i < SIZE; i++) {
    unsigned char high = values[(unsigned char)line[digits + 2 * i]], low = values[(unsigned char)line[digits + 2 * i + 1]];
    if (high > 15 || low > 15) {
      return 0;
    }
    fresh[i] = high << 4 | low;
  }
  int member = 1 + block % 4, parity = 1 + (block + 1) % 4;
  off_t place = 16 + (off_t)SIZE * (block / 4);
  if (pread(disks[member], old, SIZE, place) != SIZE || pread(disks[parity], row, SIZE, place) != SIZE) {
    return 0;
  }
  for (int i = 0; i < SIZE; i++) {
    change[i] = old[i] ^ fresh[i];
    row[i] ^= change[i];
  }
  size_t end = 26 + code(change, SIZE, coded + 26);
  memcpy(coded, &number, sizeof number);
  memcpy(slot + 12, fresh, SIZE);
  memcpy(slot + 12 + SIZE, row, SIZE);
  return write_at(0, coded, end, 8396 + (off_t)(number % 4096) * 4133) && write_at(0, slot, sizeof slot, 192) &&
         fdatasync(disks[0]) == 0 && put_head(128) && write_at(member, fresh, SIZE, place) && fdatasync(disks[member]) == 0 &&
         write_at(parity, row, SIZE, place) && fdatasync(disks[parity]) == 0 && put_head(64);
}

int main(void) {
  static const char *names[6] = {"log.trap", "m00.trap", "m01.trap", "m02.trap", "m03.trap", "m04.trap"};
  for (int i = 0; i < 6; i++) {
    if ((disks[i] = open(names[i], O_RDWR)) < 0) {
      return 6;
    }
  }
  memset(values, 255, sizeof values);
  for (int i = 0; i < 16; i++) {
    values[(unsigned char)"0123456789abcdef"[i]] = values[(unsigned char)"0123456789ABCDEF"[i]] = i;
  }
  size_t len = 0;
  unsigned long number = 0;
  ssize_t got;
  while ((got = read(0, input, sizeof input)) > 0) {
    for (ssize_t i = 0; i < got;) {
      char *feed = memchr(input + i, '\n', got - i);
      size_t more = (feed ? feed - input : got) - i;
      if (len + more >= sizeof line) {
        return 4;
      }
      memcpy(line + len, input + i, more);
      len += more;
      i += more;
      if (!feed) {
        continue;
      }
      i++;
      line[len] = 0;
      char reply[32];
      if (!do_write(len, ++number) || write(1, reply, sprintf(reply, "ok %lu\n", number)) < 0) {
        return 6;
      }
      len = 0;
    }
  }
  return got < 0 ? 8 : 0;
}
