// Does in plain C what `send 0` and `apply` do, over blocks of 4096 bytes. `send` reads the whole ring once, as mounting does, then
// each record, tests its code and writes its frame, in pieces of 32 KiB. `apply` takes frames from standard input and makes the same
// reads, writes and syncs as a replica; the file holds none afterwards.
#include <fcntl.h>
#include <stdint.h>
#include <stdio.h>
#include <stdlib.h>
#include <string.h>
#include <unistd.h>

#define SIZE 4096
#define HEADER 34
#define RECORD 26
#define MOST (RECORD + SIZE + 7)

static unsigned char input[65536], frame[HEADER + SIZE + 7], parity[SIZE], block[SIZE], value[20 + SIZE], piece[32768 + HEADER + SIZE + 7];

static uint64_t number(const unsigned char *at, int len) {
  uint64_t is = 0;
  for (int i = 0; i < len; i++) {
    is = is << 8 | at[i];
  }
  return is;
}

static void put(unsigned char *at, int len, uint64_t is) {
  for (int i = len; i-- > 0; is >>= 8) {
    at[i] = is;
  }
}

// The block that a code spells, where it is the one code of it.
static int decode(const unsigned char *in, size_t len, unsigned char *out) {
  size_t at = 0, to = 0;
  while (at < len) {
    if (len - at < 4) {
      return 0;
    }
    size_t zeros = number(in + at, 2), literal = number(in + at + 2, 2);
    at += 4;
    if (literal > len - at || zeros + literal > SIZE - to || (zeros < 4 && to > 0 && literal > 0) ||
        (literal > 0 && (in[at] == 0 || in[at + literal - 1] == 0)) || (literal >= 4 && memmem(in + at, literal, "\0\0\0\0", 4))) {
      return 0;
    }
    memset(out + to, 0, zeros);
    memcpy(out + to + zeros, in + at, literal);
    to += zeros + literal;
    at += literal;
  }
  return to == SIZE;
}

static int send_all(int disk, off_t ring, off_t end) {
  size_t have = 0, used = 0, count = 0, room = 1024;
  off_t *starts = malloc(room * sizeof *starts), at = 0, taken = 0;
  while (at < end) {
    if (have - used < MOST && taken < end) {
      memmove(input, input + used, have - used);
      have -= used;
      used = 0;
      ssize_t got = pread(disk, input + have, sizeof input - have, ring + taken);
      if (got <= 0) {
        return 6;
      }
      have += got;
      taken += got;
    }
    size_t len = RECORD + number(input + used + 22, 2);
    if (input[used] != 1 || number(input + used + 2, 8) != count + 1 || !decode(input + used + RECORD, len - RECORD, parity)) {
      return 4;
    }
    if (count == room) {
      starts = realloc(starts, (room *= 2) * sizeof *starts);
    }
    starts[count++] = at;
    used += len;
    at += len;
  }
  size_t waiting = 0;
  for (size_t i = 0; i < count; i++) {
    static unsigned char record[MOST];
    size_t len = (i + 1 < count ? starts[i + 1] : end) - starts[i];
    if (pread(disk, record, len, ring + starts[i]) != (ssize_t)len || !decode(record + RECORD, len - RECORD, parity)) {
      return 6;
    }
    if (waiting > 32768) {
      if (write(1, piece, waiting) != (ssize_t)waiting) {
        return 9;
      }
      waiting = 0;
    }
    unsigned char *to = piece + waiting;
    memcpy(to, "TPF1", 4);
    put(to + 4, 8, 7);
    memcpy(to + 12, record + 2, 20);
    put(to + 32, 2, len - RECORD);
    memcpy(to + HEADER, record + RECORD, len - RECORD);
    waiting += HEADER + len - RECORD;
  }
  return write(1, piece, waiting) == (ssize_t)waiting ? 0 : 9;
}

// The block of the frame before goes home, and then the cell is put.
static int apply_one(int disk, uint32_t *last, int *turn, int *second) {
  static unsigned char one[1] = {0xa5}, none[1] = {0};
  off_t slot = 32 + (*second ? 0 : 22 + SIZE);
  uint32_t is = number(frame + 28, 4);
  if (is == *last) {
    memcpy(block, value + 20, SIZE);
  } else if (pread(disk, block, SIZE, 76 + 2 * SIZE + (off_t)is * SIZE) != SIZE) {
    return 0;
  }
  if (pwrite(disk, value + 20, SIZE, 76 + 2 * SIZE + (off_t)*last * SIZE) != SIZE || fdatasync(disk) != 0) {
    return 0;
  }
  for (int i = 0; i < SIZE; i++) {
    value[20 + i] = block[i] ^ parity[i];
  }
  memcpy(value, frame + 12, 20);
  *turn = (*turn + 1) % 3;
  unsigned char turns[1] = {*turn};
  *last = is;
  *second = !*second;
  return pwrite(disk, none, 1, slot) == 1 && fdatasync(disk) == 0 && pwrite(disk, turns, 1, slot + 1) == 1 &&
         pwrite(disk, value, sizeof value, slot + 2) == sizeof value && fdatasync(disk) == 0 && pwrite(disk, one, 1, slot) == 1 &&
         fdatasync(disk) == 0;
}

static int apply_all(int disk) {
  size_t len = 0;
  uint32_t last = 0;
  int turn = 0, second = 0;
  uint64_t count = 0;
  ssize_t got;
  while ((got = read(0, input, sizeof input)) > 0) {
    for (ssize_t i = 0; i < got;) {
      size_t whole = len < HEADER ? HEADER : HEADER + number(frame + 32, 2);
      size_t more = whole - len < (size_t)(got - i) ? whole - len : (size_t)(got - i);
      memcpy(frame + len, input + i, more);
      len += more;
      i += more;
      if (len == whole && whole > HEADER) {
        if (memcmp(frame, "TPF1", 4) != 0 || number(frame + 12, 8) != count + 1 || !decode(frame + HEADER, len - HEADER, parity)) {
          return 11;
        }
        if (!apply_one(disk, &last, &turn, &second)) {
          return 13;
        }
        count++;
        len = 0;
      }
    }
  }
  printf("applied %lu frames %lu held 0 repeats 0 beyond 0\n", (unsigned long)count, (unsigned long)count);
  return got < 0 ? 8 : 0;
}

int main(int argc, char **argv) {
  int disk = argc < 2 ? -1 : open(argv[1], O_RDWR);
  if (disk < 0) {
    return 6;
  }
  if (argc == 4) {
    return send_all(disk, atol(argv[2]), atol(argv[3]));
  }
  return apply_all(disk);
}
