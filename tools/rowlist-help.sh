#!/bin/sh
# What rowlist would say of itself: it takes no arguments, so its man page is made from this text.
cat <<'END'
Usage: rowlist < INPUT

Lists every row that is consistent with a message and a received row. Reads standard input, at most its first 4,096 bytes:
the length of the message (2 bytes, high first), the message, the number m of received bits (2 bytes, high first), and the
received row in the remaining bytes, packed first bit highest.

It takes no options, and no word behind its name is looked at: rowlist --help, too, waits for such input.

Prints a line with the word count and the number of rows, then each row on a line of its own in capital hexadecimal, in
dictionary order. Where the input is refused, prints one line, the word refused and the number of the refusal. It lists at most
as many rows as 4,096 bytes hold; where there are more, it is refused by 9.

Refusals, by their number:
   1  message under nine bytes, or another mark
   2  version not 1
   3  layout not legal, or w outside 1 to 2,040
   4  message length not the one its layout gives
   5  a sum above the length of its string
   6  a spare bit of the message is 1
   7  m above n, or n − m above 12
   8  a row or string of another byte count than its bits need, or a spare bit 1
   9  more consistent rows than fit whole in the list slice

What it puts out for the bytes that it has read is proved to be what is written here, as the library is proved, for any
bytes. Reading and writing themselves rest on the C library's read and write, of which it is assumed that they do their part.

Examples:
  printf '\000\013RSM\000\001\002\001\004\000\100\200\000\006\074' | rowlist

prints the lines count 2, 36 and 39.
END
