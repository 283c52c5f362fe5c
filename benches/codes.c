// Codes or decodes a block of 4096 bytes again and again, as the bench of the product does, in plain C.
#include <stdio.h>
#include <stdlib.h>
#include <string.h>

#define SIZE 4096

static unsigned char block[SIZE], coded[SIZE + 7], back[SIZE];

static size_t put(unsigned char *out, size_t end, size_t zeros, const unsigned char *literal, size_t len) {
  out[end] = zeros >> 8;
  out[end + 1] = zeros & 255;
  out[end + 2] = len >> 8;
  out[end + 3] = len & 255;
  memcpy(out + end + 4, literal, len);
  return end + 4 + len;
}

static size_t code(const unsigned char *in, size_t size, unsigned char *out) {
  size_t at = 0, end = 0;
  while (at < size) {
    size_t start = at;
    while (start < size && in[start] == 0) {
      start++;
    }
    size_t stop = start, zeros = 0;
    while (stop < size && zeros < 4) {
      zeros = in[stop] == 0 ? zeros + 1 : 0;
      stop++;
    }
    size_t last = stop - zeros;
    end = put(out, end, start - at, in + start, last - start);
    at = last;
  }
  return end;
}

// Whether the bytes are a literal: nonzero ends, and no four zero bytes in succession.
static int is_literal(const unsigned char *in, size_t len) {
  if (in[0] == 0 || in[len - 1] == 0) {
    return 0;
  }
  size_t run = 0;
  for (size_t i = 0; i < len; i++) {
    run = in[i] == 0 ? run + 1 : 0;
    if (run == 4) {
      return 0;
    }
  }
  return 1;
}

static int decode(const unsigned char *in, size_t len, unsigned char *out, size_t size) {
  size_t at = 0, filled = 0, least = 0;
  while (filled < size) {
    if (len - at < 4) {
      return 0;
    }
    size_t zeros = in[at] << 8 | in[at + 1], literal = in[at + 2] << 8 | in[at + 3], owed = size - filled;
    if (len - at - 4 < literal) {
      return 0;
    }
    if (literal == 0 ? zeros != owed
                     : zeros < least || zeros > owed || literal > owed - zeros || !is_literal(in + at + 4, literal)) {
      return 0;
    }
    memset(out + filled, 0, zeros);
    memcpy(out + filled + zeros, in + at + 4, literal);
    filled += zeros + literal;
    at += 4 + literal;
    least = 4;
  }
  return at == len;
}

// The kinds of a block: 0 a whole literal, 1 one changed byte, 2 a hundred short runs, 3 runs of one to four bytes, 4 zero.
static void make_block(int kind) {
  unsigned state = 1, left = 0, zero = 0;
  for (size_t i = 0; i < SIZE; i++) {
    if (left == 0) {
      state = state * 1103515245u + 12345u;
      left = 1 + (state >> 16) % 4;
      zero = !zero;
    }
    left--;
    block[i] = kind == 0   ? i % 251 + 1
               : kind == 1 ? (i == 2000 ? 0x5a : 0)
               : kind == 2 ? (i < 4000 && i % 40 < 8 ? 0x5a : 0)
               : kind == 3 ? (zero ? 0 : 0x5a)
                           : 0;
  }
}

int main(int argc, char **argv) {
  if (argc != 2 || strlen(argv[1]) != 2) {
    fprintf(stderr, "usage: codes KIND_AND_WAY\n");
    return 2;
  }
  make_block(argv[1][0] - '0');
  size_t len = code(block, SIZE, coded), total = 0;
  if (argv[1][1] == '0') {
    for (unsigned i = 0; i < 20000; i++) {
      total += code(block, SIZE, coded);
    }
  } else {
    for (unsigned i = 0; i < 100000; i++) {
      total += (size_t)decode(coded, len, back, SIZE) + back[i % SIZE];
    }
  }
  printf("%zu\n", total);
  return 0;
}
