// Makes the system calls that the design asks of a session of `R` lines over an array whose blocks have 16 bytes: input in
// pieces of 64 KiB, and for each line one positioned read and one write. It checks no more than it needs to.
#include <fcntl.h>
#include <stdio.h>
#include <string.h>
#include <unistd.h>

static char input[65536];

int main(int argc, char **argv) {
  if (argc != 3) {
    fprintf(stderr, "usage: same_calls FILE FIRST_BYTE\n");
    return 2;
  }
  int disk = open(argv[1], O_RDWR);
  if (disk < 0) {
    return 6;
  }
  off_t first = 0;
  sscanf(argv[2], "%ld", &first);
  static const char digits[] = "0123456789abcdef";
  char line[80];
  size_t len = 0;
  ssize_t got;
  while ((got = read(0, input, sizeof input)) > 0) {
    for (ssize_t i = 0; i < got; i++) {
      if (input[i] != '\n') {
        if (len < sizeof line) {
          line[len++] = input[i];
        }
        continue;
      }
      unsigned char block[16];
      char reply[36] = "is ";
      if (len != 3 || pread(disk, block, 16, first + 16 * (line[2] - '0')) != 16) {
        return 6;
      }
      for (int k = 0; k < 16; k++) {
        reply[3 + 2 * k] = digits[block[k] >> 4];
        reply[4 + 2 * k] = digits[block[k] & 15];
      }
      reply[35] = '\n';
      if (write(1, reply, 36) != 36) {
        return 9;
      }
      len = 0;
    }
  }
  return got < 0 ? 8 : 0;
}
