"""The texts of tools/plan --help."""

PLAN = """\
The planner's helper: makes the bench's records from a readable script, and
says what the bench's lines mean.

  tools/plan records SCRIPT > OUT     the records, to be the bench's input
  target/bin/bench < OUT > LINES      the bench runs them
  tools/plan explain SCRIPT LINES     each line beside what caused it, in words
  tools/plan show RECORDS             a file of records as a script

A wrong script gives SCRIPT:LINE: with what was expected, no output, and exit
status 2. Examples: examples/first.plan, examples/claim.plan; docs/PLANNER.md.
"""

SCRIPT = """\
the script:
  One statement on a line; # starts a comment. Numbers of slots, words, blocks
  and positions are decimal; modes, opcodes and bytes are hexadecimal.

  image zeros                  a token of 664 zeros: both zones locked
  image blank                  a new part: default configuration, unlocked
  image FILE                   664 bytes: configuration 88, OTP 64, data 512
  set config POSITION BYTES    changes the image right above: configuration
  set slotconfig N BYTES         bytes from a position on, the two bytes of a
  set otp BYTES                  SlotConfig (low first), the 64 bytes of OTP,
  set slot N BYTES               the 32 bytes of a slot
  random bytes BYTES           the 32 random bytes that go with each block from
                                 here on; zeros until then
  wake | idle | sleep

  nonce MODE BYTES             mode 0 or 1 with 20 bytes, 3 with 32
  random MODE                  mode 0 or 1
  mac MODE slot N challenge BYTES        32 bytes
  mac MODE slot N                        where the mode has bit 0
  checkmac MODE slot N challenge BYTES response BYTES other BYTES
                                 32, 32 and 13 bytes. Bits of the two modes:
                                 0 TempKey for the challenge, 1 TempKey for the
                                 slot (`slot N` may be left out), 2 TempKey is
                                 of nonce 3; mac: 4 OTP 0-10, 5 OTP 0-7, 6 SN2-7;
                                 checkmac: 5 OTP 0-7
  gendig config|otp block N
  gendig data slot N [header BYTES]      4 bytes, for a CheckOnly key
  derivekey MODE slot N [mac BYTES]      mode 0 or 4
  read config|otp word N 4     words of configuration 0-21, of OTP 0-15
  read config|otp block N 32   block 0 or 1
  read data slot N 32
  read data slot N word M 4    word 0-7 of that slot
  write PLACE clear BYTES      PLACE as with read: config word 4, data slot 3
  write PLACE encrypted BYTES mac BYTES  value and MAC as they go over the wire;
                                 bit 6 is set while values are unlocked
  lock config|values sum       the sum over the image and the clear writes
  lock config|values sum HHHH  this sum
  lock config|values nosum     bit 7: no sum
  updateextra user|selector BYTE
  devrev

  command OPCODE PARAM1 PARAM2 [BYTES]   any fields, with count and check value
  block BYTES                  these bytes as they are; `block empty`: none

  BYTES: 0011AABB or 00 11 AA BB; 11*20 is 20 bytes 11; 11.. is 11 again and
  again up to the field's length; file:NAME is what a file holds. Files are
  looked for from the script's folder.

example:
  image zeros                  # both zones locked, all keys zero
  set slot 3 C4..
  wake
  nonce 3 11..                 # TempKey: 32 bytes 11
  mac 05 slot 3                # digest of slot 3 and TempKey
  read data slot 3 32
  sleep
"""

RECORDS = """\
Writes the bench's records for a script to standard output: EE for `image`, WK,
ID and SL for `wake`, `idle` and `sleep`, BK with 32 random bytes for the rest.
A wrong line gives SCRIPT:LINE: with what was expected, no output, status 2.
The bench takes up to 65,536 bytes; the line that goes beyond them is named.
"""

EXPLAIN = """\
Puts each line of the bench beside the line of the script that caused it, and
says what it means:

  3  wake
         11: woken
  4  devrev
         DevRev answers RevNum 00000000
  5  sleep
         none: sleep gives no answer; the token is asleep, TempKey is empty now

statuses:
  00  done, or accepted; after CheckMac: compared equal
  01  CheckMac compared unequal
  03  refused: unknown opcode, or a field or length outside the command's shape
  0F  refused: a stated condition is not met; what the command asks is listed
  11  woken
  FF  the block is damaged; nothing changed

The count and check value of each answer are looked at, and whether such an
answer can follow such a block in such a power state. What does not fit the
script goes to standard error as LINES:LINE: and gives exit status 1; the usual
cause is that the lines are of another script. `bad N` and `too long` are
explained there too. A wrong script gives status 2, as with `records`.
"""

SHOW = """\
Writes a file of records as a script, to be read or changed. From that script
`plan records` makes the same bytes. A block that has no words of its own
comes as `command`, a damaged one as `block`.
"""
