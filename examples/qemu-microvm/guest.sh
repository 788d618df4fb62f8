#!/bin/sh
# Writes the ROM of the guest of these examples to standard output: 65,536 bytes, of which 60 are code.
#
# The guest copies itself into RAM, writes 41 (A) to the scratch register of the serial port, and then sends for ever
# the byte that stands there. It runs in RAM since nothing is put into the ROM of a VM that comes in.
printf '\372\374\61\300\216\300\16\37\276\40\0\277\0\6\271\34\0\363\244\352\0\6\0\0' # copy 28 bytes, go there
printf '\220\220\220\220\220\220\220\220'
printf '\272\377\3\260\101\356'                                      # out 03ff 41
printf '\272\375\3\354\250\40\164\370'                               # wait until bit 5 of 03fd is set
printf '\272\377\3\354\272\370\3\356'                                # in 03ff, out 03f8
printf '\61\311\342\376\353\352'                                     # wait a little, and again
head -c 65460 /dev/zero
printf '\352\0\0\0\360'                                              # where a processor begins: go to the ROM's start
head -c 11 /dev/zero
