#!/usr/bin/env bash
# Explains the commands, or the one that is named, on standard output. It touches no file.
set -euo pipefail

overview() {
  cat <<'TEXT'
limuvosel keeps numbered blocks on RAID-5 member files in the current folder, safe over power cuts and the loss of one member,
and reads any block as it was at any retained instant.

  limuvosel create ID MEMBERS CHUNK BLOCK ROWS SLOTS GAP ENTRIES RING   makes an array
  limuvosel session                                                     answers request lines from standard input
  limuvosel history                                                     lists the retained writes
  limuvosel send FROM                                                   the frames of the writes after number FROM
  limuvosel replica-create ID BLOCK VOLUME                              makes a replica of zeros
  limuvosel replica-load ID BLOCK VOLUME SEQ TIME                       makes a replica of an image on standard input
  limuvosel apply                                                       applies frames from standard input to the replica
  limuvosel replica-export                                              the replica's image
  limuvosel help [COMMAND]                                              this text, or more on one command

The manual page, limuvosel(1), has every line, reply and status.
TEXT
}

create() {
  cat <<'TEXT'
limuvosel create ID MEMBERS CHUNK BLOCK ROWS SLOTS GAP ENTRIES RING

Makes an array in the current folder and prints `created ID`. A file of an array that is there already is `fault exists DISK`.

  ID        any number below 2^64
  MEMBERS   3 to 16 files m00.trap, m01.trap ..; one member's worth is spent on parity
  CHUNK     successive blocks on one member, 1 to 128
  BLOCK     bytes of a block: a power of two from 16 to 4096
  ROWS      blocks of a member: whole chunks, at most 2^20; the volume is ROWS x (MEMBERS - 1), at most 2^20
  SLOTS     staging slots: 1
  GAP       2 to 255, not used yet
  ENTRIES   retained writes, 1 to 2^20
  RING      bytes of the log's ring: 26 and at most BLOCK + 7 for each retained write; at least two of the longest records

  limuvosel create 1 3 16 4096 1024 1 2 10000 33554432     8 MiB, some 10,000 writes of history in 32 MiB
TEXT
}

session() {
  cat <<'TEXT'
limuvosel session

Reads request lines from standard input and answers each with one line.

  W TIME BLOCK HEX   ok SEQ                            writes a block; the reply comes when it is safe
  R BLOCK            is HEX                            the present contents
  A SEQ BLOCK        at HEX                            the contents after write SEQ
  T TIME BLOCK       at HEX                            the contents after all writes with a time of at most TIME
  I                  is FIRST LAST BASETIME LASTTIME   what is retained
  Q                                                    ends the session

Refusals: no line, no block, no time LAST, no worn, no full, no kept BOUND, no ahead LAST. They change nothing.
TEXT
}

history() {
  cat <<'TEXT'
limuvosel history

Prints a line for each retained write, the oldest first: SEQ TIME BLOCK SIZE MARK. SIZE is the length in bytes of its log
record, so a write that changed much of its block is seen; MARK is `-`.
TEXT
}

send() {
  cat <<'TEXT'
limuvosel send FROM

Says the frames of the retained writes after number FROM, for `apply` on another machine: 34 bytes and the code of what changed for
each write. Nothing is said where FROM isn't retained: `fault not kept BOUND` or `fault ahead LAST`, status 14. scripts/replicate.sh
finds FROM and does the rest.
TEXT
}

replica_create() {
  cat <<'TEXT'
limuvosel replica-create ID BLOCK VOLUME

Makes `replica.trap` in the current folder, at number 0 and with blocks of zeros, and prints `created ID`. ID and BLOCK are those of the
array, VOLUME is the number of its blocks.
TEXT
}

replica_load() {
  cat <<'TEXT'
limuvosel replica-load ID BLOCK VOLUME SEQ TIME

Makes `replica.trap` in the current folder of an image on standard input, exactly VOLUME x BLOCK bytes, and prints `loaded SEQ`. SEQ
and TIME are the number and the time of the last write that the image has.
TEXT
}

apply() {
  cat <<'TEXT'
limuvosel apply

Applies the frames on standard input to the replica in the current folder. They may come repeated, or out of order within 64 numbers.
Prints one line, also before a fault of the stream:

  applied N frames C held H repeats P beyond Y     the image has every write up to N; `send N` is what comes next

Over an empty input it says how far the replica is.
TEXT
}

replica_export() {
  cat <<'TEXT'
limuvosel replica-export

Says the replica's image, block after block.
TEXT
}

case "${1:-}" in
  "") overview ;;
  create | session | history | send | apply) "$1" ;;
  replica-create) replica_create ;;
  replica-load) replica_load ;;
  replica-export) replica_export ;;
  *)
    echo "limuvosel: no command $1; these are: create, session, history, send, replica-create, replica-load, apply, replica-export" >&2
    exit 2
    ;;
esac
