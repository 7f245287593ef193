"""What `tools/trace help` prints."""

USAGE = """\
usage: tools/trace write [TEXT] > TRACE
       tools/trace show [TRACE] > TEXT
       tools/trace explain [--trace TRACE | --header H1 H2 --no-checking] [OUTPUT]
       tools/trace help"""

HELP = USAGE + """

  write      assembles a trace; nothing is written unless all of the text is right
  show       prints a trace as text, with the moment beside a frame that sets the clock; `write` turns the text into the same bytes
             again, whatever they are
  explain    prints what the panel program printed, and beside each line what it means
  help       prints this

Without a file, standard input is read. Exit status: 0 done; 1 a mistake in the text, or lines that are not the program's; 2 bad usage, or
something could not be read or written. A pipe that is no longer read ends the tool without a word.

THE TEXT

UTF-8 without control characters. One statement to a line; what follows # is a comment. `=`, `,` and `..` separate as blanks do. A byte is
two hex digits. A number is decimal, or hex after 0x; it must fit its field, and is not held against 01, so that wrong traces can be
written. What stands in [ ] may be left out. The fields of a statement may come in any order, each once; those of `frame` stand before the
command.

  setup header=5A A5 [checking] [acknowledging] [revised] pages=2 width=800 height=480
                              revised: sliders round by the revised scale sheet; without it by the old one
  setup header=5A A5 flags=0F pages=2 width=800 height=480
                              the flag byte itself, a byte in hex, in place of the three words
  key page=0 area=10,10..100,50 [next=1] word=0x0010 mode=word code=0x1234
  step page=0 area=10,10..100,50 [next=1] word=0x0010 mode=high up round by=5 least=0 greatest=100
                              up or down; at the end stop or round
  slider page=0 area=10,10..100,50 [next=1] word=0x0010 mode=low across begin=0 end=255
                              across or down
      area=Xs,Ys..Xe,Ye       the first point and the last; each 0 to 65535, as page, word, code, by, pages, width and height are
      next=1                  the page shown then, 0 to 65535; next=none is FF00, as is no `next`; next=0xFF12 is none too, written FF12
      mode=word               word, high (byte) or low (byte)
      mode=0x35               a number, 0 to 255: the mode byte itself; for a slider without across or down, which stand in that byte
      least, greatest, begin, end
                              decimal -32768 to 32767; or hex, 0x0000 to 0xFFFF, the two bytes themselves
  record B0 B1 .. B31         a touch record, its 32 bytes
  line BB BB ..               line bytes
  frame CC DD DD ..           line bytes: a whole frame of the command CC and data, enclosed as the last setup before it says; at most 252
                              bytes of data with checking, 254 without
  frame badly CC DD ..        the same with a wrong check value; with checking only, and not beside cut
  frame cut=2 CC DD ..        the same without its last bytes, 1 or more
  frame length=9 CC DD ..     the same with another length byte, 0 to 255
  quiet                       a quiet mark
  contact 11 11               X and Y, each 0 to 65535
  lift
  second                      a second passes
  bytes BB BB ..              bytes of the trace as they stand, for traces that are wrong
  repeat 3 STATEMENT          a statement, 1 to 16777216 times; the whole trace has at most 268435456 bytes

THE OUTPUT

  ./panel < TRACE | tools/trace explain --trace TRACE

An output says neither its header nor whether its frames have check bytes. `explain` takes header 5A A5 and checking, or what --header and
--no-checking say, or the setup of the trace; by the trace it also says which contact or lift a T stands for and which record an X names. A
line that the program cannot have printed where it stands is marked `not the program's`, with the reason.
"""
