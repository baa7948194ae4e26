# SPDX-License-Identifier: Apache-2.0 OR BSD-3-Clause
"""Each sentence that `help` prints is in TALKS, where a talk with the shell or with the viewer shows that it is true.

A section has the name of a command, and each of its blocks has some sentences and, after them, what is typed in a new
session, with the replies. Such a row begins with >, or with $ if the host gets it. `(empty)` is an empty row, `(end)`
is the end of the session, and ... is any text. After @ is why no talk shows a sentence."""
import doctest
import io
import os
import re
from contextlib import redirect_stderr

from support import FolderTest, run

from superio import Rtc, RtcState, Serial, SerialState
from superio.recording import replay
from superio.session import Session
from superio.view import Viewer

TALKS = r"""
# (groups)
Serial port. Clock and reset controller. What happened. Session.
@ These are titles.

Lines of a script, with hexadecimal fields.
> sw 7 1f               ok
> read SCR              SCR = 0x1f
> sr 10                 00

Further lines, which the program superio does not take.
> si                    ok
> trace new             the calls since the last reset are in new
$ superio new           bad line 1

# (end)
help NAME says more.
> help drain            drain
                        the guest's driver reads what is held.

Ctrl-C drops a line, Ctrl-D ends.
@ A terminal shows this: those of test_commandline.py get both keys.

# read
the guest reads: read LSR, read 5.
> read LSR              LSR = 0x60  THRE TEMT
> read 5                LSR = 0x60  THRE TEMT

REGISTER is RBR, DLL, IER, DLM, IIR, LCR, MCR, LSR, MSR, SCR, or an offset from 0 to 255.
> read RBR              RBR = 0x00  no byte was held
> read IER              IER = 0x00
> read IIR              IIR = 0xc1  none
> read LCR              LCR = 0x03  8N1
> read MCR              MCR = 0x08  OUT2
> read LSR              LSR = 0x60  THRE TEMT
> read MSR              MSR = 0xb0  CTS DSR DCD
> read SCR              SCR = 0x00
> write LCR DLAB        ok
> read DLL              DLL = 0x0c
> read DLM              DLM = 0x00
> read 255              offset 0xff = 0x00
> read 256              256 is no offset: it is from 0 to 255
> read -1               -1 is no offset: it is from 0 to 255
> read THR              THR is out of reach while DLAB is set: clear bit 0x80 of LCR first
> read FCR              FCR can only be written: a read at its offset reaches IIR

# write
the guest writes: write IER RDA|THRE.
> write IER RDA|THRE    ok; interrupt for THRE
> read IER              IER = 0x03  RDA THRE

REGISTER is THR, DLL, IER, DLM, FCR, LCR, MCR, LSR, MSR, SCR, or an offset.
> write THR 1           sent "\x01"
> write IER 1           ok
> write FCR 1           ignored
> write MCR 1           ok
> write LSR 1           ignored
> write MSR 1           ignored
> write SCR 1           ok
> write 255 1           ignored
> write LCR DLAB        ok
> write DLL 1           ok
> write DLM 1           ok
> write RBR 1           RBR is out of reach while DLAB is set: clear bit 0x80 of LCR first
> write IIR 1           IIR can only be read: a write at its offset reaches FCR

VALUE is 65, 0x41, 'A', or names of bits as RDA|THRE; for LCR also 8N1|DLAB.
> write SCR 65          ok
> write SCR 0x41        ok
> write SCR 'A'         ok
> write IER RDA|THRE    ok; interrupt for THRE
> write MCR 8N1         8N1 is no value, and MCR has the bits DTR RTS OUT1 OUT2 LOOP
> write LCR 8N1|DLAB    ok
> trace                 sw 07 41
                        sw 07 41
                        sw 07 41
                        sw 01 03
                        sw 03 83

# type
bytes arrive for the guest.
> type hi               2 bytes received; no interrupt: IER does not enable RDA
> read RBR              RBR = 0x68  "h"

1 to 128 bytes.
> type ""               1 to 128 bytes arrive at once
> type X128             64 of 128 bytes received: the FIFO is full
> type X128x            1 to 128 bytes arrive at once

In quotes \n, \r, \t, \0, \e, \\, \" and \x41 are single bytes.
> type "\n\r\t\0\e\\\"\x41"  8 bytes received; no interrupt: IER does not enable RDA
> sd                    0a0d09001b5c2241

# timeout
raises RDA again if bytes wait without it.
> timeout               no interrupt: no byte is held
> type hi               2 bytes received; no interrupt: IER does not enable RDA
> timeout               2 bytes held; no interrupt: IER does not enable RDA
> write IER RDA         ok; interrupt for RDA
> timeout               2 bytes held; no interrupt: RDA is pending already
> read IIR              IIR = 0xc4  RDA
> timeout               2 bytes held; interrupt for RDA

Bytes wait if IER enables RDA, and a read of IIR or RBR has ended it and left them.
> write IER RDA         ok
> type hi               2 bytes received; interrupt for RDA
> read RBR              RBR = 0x68  "h"
> why                   RDA is not pending: call 3, sr 00, acknowledged it. 1 byte is held: a timeout,...
                        THRE is not pending: no call has raised it. IER does not enable it.
> timeout               1 byte held; interrupt for RDA
> read IIR              IIR = 0xc4  RDA
> timeout               1 byte held; interrupt for RDA
> read RBR              RBR = 0x69  "i"
> timeout               no interrupt: no byte is held

A monitor makes this call after each guest read of IIR that answers none, and once in each turn of its event loop.
@ This is what a monitor does: "The character timeout" of docs/PORT.md has both moments.

# drain
the guest's driver reads what is held.
> type hi               2 bytes received; no interrupt: IER does not enable RDA
> drain                 "hi"
> drain                 ""
> read RBR              RBR = 0x00  no byte was held

# output
what the guest sent.
> output                ""
> write THR 'a'         sent "a"
> write THR 'b'         sent "b"
> output                "ab"
> output                "ab"

# restore
saves the port and restores it.
> write SCR 7           ok
> type a                1 byte received; no interrupt: IER does not enable RDA
> restore               restored
> read SCR              SCR = 0x07
> drain                 "a"

The restored port asks again for each interrupt that is pending and enabled.
> write IER RDA|THRE    ok; interrupt for THRE
> type a                1 byte received; interrupt for RDA
> restore               restored; interrupt for RDA, THRE
> write IER THRE        ok
> restore               restored; interrupt for THRE
> read IIR              IIR = 0xc6  RDA THRE
> restore               restored

# clock
clock read DR now, clock write IMSC 1.
> clock read DR now     DR = 0x6553f100  2023-11-14 22:13:20 UTC
> clock write IMSC 1    ok
> clock read IMSC       IMSC = 0x00000001  ALARM

REGISTER is DR, MR, LR, CR, IMSC, RIS, MIS, ICR, ID0 to ID7, or an offset.
> clock read DR         DR = 0x6553f100  2023-11-14 22:13:20 UTC
> clock read MR         MR = 0x00000000
> clock read LR         LR = 0x00000000
> clock read CR         CR = 0x00000001
> clock read IMSC       IMSC = 0x00000000
> clock read RIS        RIS = 0x00000000
> clock read MIS        MIS = 0x00000000
> clock write ICR 1     ok
> clock read ID0        ID0 = 0x00000031
> clock read ID7        ID7 = 0x000000b1
> clock read 0xfe0      ID0 = 0x00000031
> clock read ID8        ID8 is no offset of the clock, and no register: those are DR...

MOMENT is now, now+5, or seconds since 1970; it is now if left out.
> clock read DR now     DR = 0x6553f100  2023-11-14 22:13:20 UTC
> clock read DR         DR = 0x6553f100  2023-11-14 22:13:20 UTC
> clock read DR now+5   DR = 0x6553f105  2023-11-14 22:13:25 UTC
> clock read DR 5       DR = 0x00000005  1970-01-01 00:00:05 UTC

# alarm
sets the clock's match register.
> alarm 2000000000      alarm set for guest time 0x77359400  2033-05-18 03:33:20 UTC
> clock read MR         MR = 0x77359400

alarm +5 is in 5 seconds.
> alarm +5              alarm set for guest time 0x6553f105  2023-11-14 22:13:25 UTC
> regs clock            clock, in UTC
                        ...
                          RIS  0x00000000
                          alarm due in 5 s
                          interrupt line down
> clock write LR 100    ok
> alarm +5              alarm set for guest time 0x00000069  1970-01-01 00:01:45 UTC

GUEST_TIME is in seconds since 1970: alarm 5 was long ago.
> alarm 5               ok, and no alarm: guest time 0x00000005, 1970-01-01 00:00:05 UTC, is past
> alarm 5 4             alarm set for guest time 0x00000005  1970-01-01 00:00:05 UTC

The line goes up if IMSC is 1.
> alarm +5              alarm set for guest time 0x6553f105  2023-11-14 22:13:25 UTC
> clock read RIS now+4  RIS = 0x00000000
> clock read RIS now+5  RIS = 0x00000001  ALARM
> regs clock            clock, in UTC
                        ...
                          RIS  0x00000001  ALARM
                          no alarm is set
                          interrupt line down
> clock write IMSC 1    ok
> regs clock            clock, in UTC
                        ...
                          RIS  0x00000001  ALARM
                          no alarm is set
                          interrupt line up

# i8042
i8042 write 4 0xfe resets the machine.
> i8042 write 4 0xfe    reset
> i8042 write 4 0xff    ok

# regs
every register, the FIFO and what is pending.
> write IER RDA         ok
> type a                1 byte received; interrupt for RDA
> regs                  serial port
                          IER  0x01  RDA
                          IIR  0xc4  RDA
                          LCR  0x03  8N1
                          MCR  0x08  OUT2
                          LSR  0x61  DR THRE TEMT
                          MSR  0xb0  CTS DSR DCD
                          SCR  0x00
                          divisor 12, FIFO 1 of 64
                          "a"
                          pending: RDA
                          line called 1 time, 0 bytes out
                        clock, in UTC
                          DR   0x6553f100  2023-11-14 22:13:20
                          MR   0x00000000
                          LR   0x00000000
                          IMSC 0x00000000
                          RIS  0x00000000
                          no alarm is set
                          interrupt line down

# why
why each interrupt is pending, or is not.
> write IER RDA         ok
> type a                1 byte received; interrupt for RDA
> why                   RDA is pending: call 2, sq 61, raised it, and the line took the interrupt. A read of IIR or ...
                        THRE is not pending: no call has raised it. IER does not enable it.

# diff
what the last call changed.
> type a                1 byte received; no interrupt: IER does not enable RDA
> write SCR 7           ok
> diff                  sw 07 07
                          SCR 0x00 -> 0x07
> read SCR              SCR = 0x07
> diff                  sr 07
                          nothing changed

# trace
every call as a line.
> write SCR 7           ok
> type "a"              1 byte received; no interrupt: IER does not enable RDA
> si                    ok
> cb                    53494f530201190000000000000000000000000000000000000000000000000000
> trace                 sw 07 07
                        sq 61
                        si
                        cb

trace alone lists those since the last reset, and trace FILE writes them to a file, for load and for the viewer.
> write SCR 7           ok
> reset                 a fresh board
> write SCR 8           ok
> sb                    53494f53010109000c000001036008b008
> trace                 sw 07 08
                        sb
> trace new             the calls since the last reset are in new
> reset                 a fresh board
> load new              ok
                        53494f53010109000c000001036008b008
> read SCR              SCR = 0x08
$ view new --table      piece 1
                              1  sw 07 08                  ok        SCR 0x00 -> 0x08
                              2  sb                        53494f53010109000c000001036008b008

trace on shows each from now on.
> write SCR 7           ok
> save new              port and clock saved to new
> trace on              trace is on
> write SCR 8           sw 07 08
                        ok
> source new            sl 53494f53010109000c000001036008b007
                        ok
                        cl 53494f530201190000000000000000000000000000000000000000000000000000
                        ok
> trace off             trace is off
> write SCR 9           ok

# script
the same calls as a script for the program superio.
> write SCR 7           ok
> read SCR              SCR = 0x07
> script                sw 07 07
                        sr 07
> trace                 sw 07 07
                        sr 07

script FILE writes it to a file.
> write SCR 7           ok
> read SCR              SCR = 0x07
> script new            the script is in new
$ superio new           ok
                        07

The program has no further lines: those that changed nothing are left out, and if one changed something, there is no
such script.
> sb                    53494f53010109000c000001036008b000
> write SCR 7           ok
> si                    ok
> script                sw 07 07
> sl 00                 too short
> script                sw 07 07
> write IER RDA         ok
> type a                1 byte received; interrupt for RDA
> read IIR              IIR = 0xc4  RDA
> si                    ok
> script                the program superio has no script of this session: call 8, si, is none of its lines...

# save
saves port and clock.
> write SCR 7           ok
> clock write MR 8      ok, and no alarm: guest time 0x00000008, 1970-01-01 00:00:08 UTC, is past
> save new              port and clock saved to new
> reset                 a fresh board
> load new              ok
                        ok
> read SCR              SCR = 0x07
> clock read MR         MR = 0x00000008

The file has the two lines that load them, sl and cl.
> save new              port and clock saved to new
$ cat new               sl 53494f53010109000c000001036008b000
                        cl 53494f530201190000000000000000000000000000000000000000000000000000

load takes it, and the program superio does not.
> save new              port and clock saved to new
> load new              ok
                        ok
$ superio new           bad line 1

# load
carries out the lines of a file, such as save wrote.
> write SCR 7           ok
> save new              port and clock saved to new
> trace calls           the calls since the last reset are in calls
> reset                 a fresh board
> load new              ok
                        ok
> read SCR              SCR = 0x07
> load calls            ok

The port goes on over the board's own line and output.
> save new              port and clock saved to new
> write THR 'a'         sent "a"
> write IER THRE        ok; interrupt for THRE
> st                    0000000000000001
> load new              ok
                        ok
> read IER              IER = 0x00
> write IER THRE        ok; interrupt for THRE
> st                    0000000000000002
> output                "a"

If the line refuses an interrupt that is due, the port stays as it was.
> write IER THRE        ok; interrupt for THRE
> save new              port and clock saved to new
> reset                 a fresh board
> refuse 3
> write SCR 7           ok
> type a                1 byte received; no interrupt: IER does not enable RDA
> load new              trigger
                        ok
> read SCR              SCR = 0x07
> read IER              IER = 0x00
> drain                 "a"
> write IER THRE        ok; interrupt for THRE refused
> write SCR 8           ok
> load new              trigger
                        ok
> read SCR              SCR = 0x08

# source
as load.
> write SCR 7           ok
> save new              port and clock saved to new
> reset                 a fresh board
> source new            ok
                        ok
> read SCR              SCR = 0x07
> source none           none: No such file or directory
> load none             none: No such file or directory

# reset
a fresh board, on which every device is new, also the clock.
> write SCR 7           ok
> type a                1 byte received; no interrupt: IER does not enable RDA
> write THR 'b'         sent "b"
> clock write LR 100    ok
> clock write MR 7      ok, and no alarm: guest time 0x00000007, 1970-01-01 00:00:07 UTC, is past
> reset                 a fresh board
> read SCR              SCR = 0x00
> drain                 ""
> output                ""
> clock read DR         DR = 0x6553f100  2023-11-14 22:13:20 UTC
> clock read MR         MR = 0x00000000
> st                    0000000000000000

# help
this list, or more about one command.
> help                  Serial port
                        ...
                        help NAME says more. Ctrl-C drops a line, Ctrl-D ends.
> help sr               sr OO
                        the guest reads at offset OO.
                        Reply: the byte.

# quit
ends, as exit and Ctrl-D do.
> quit                  (end)
> exit                  (end)
> EOF                   (end)

# sr
the guest reads at offset OO. Reply: the byte.
> sr 05                 60
> read 5                LSR = 0x60  THRE TEMT

# sw
the guest writes VV at offset OO. Reply: ok; io if the byte was lost.
> sw 07 1f              ok
> sr 07                 1f
> source full           ...
> output                "aaaa..."
> sw 00 61              io
> output                "aaaa..."

# sq
the monitor enqueues 0 to 128 bytes. Each has two digits, and no spaces stand between them. Reply: how many were
accepted, two digits; full if the line has bytes, the port holds 64 already, and it is not in loopback.
> sq                    00
> sq 6162               02
> sq 61 62              the syntax is: sq HH..
> sq 616                the syntax is: sq HH..
> drain                 "ab"
> sq Z128               40
> sq Z12800             the syntax is: sq HH..
> sq 61                 full
> sq                    00
> write MCR LOOP        ok
> sq 61                 00

# sc
the board tells how many more bytes fit in the FIFO. Reply: two digits: 40, which is 64, if no byte is held.
> sc                    40
> sq 616263             03
> sc                    3d
> sq Z128               3d
> sc                    00

# sd
the guest's driver reads what is held. It reads RBR as long as LSR shows data ready. If DLAB is set, it reads no byte.
Reply: the bytes that it read; an empty line if there are none.
> sd                    (empty)
> sq 6162               02
> sw 03 83              ok
> sd                    (empty)
> sw 03 03              ok
> sd                    6162
> diff                  sd
                          LSR 0x61 -> 0x60  THRE TEMT
                          FIFO 2 -> 0 bytes
> se                    0000000000000002 0000000000000000 0000000000000000 0000000000000001
> sd                    (empty)

# ss
the board makes a new port from the old one's saved state. Reply: ok.
> sw 07 07              ok
> sq 61                 01
> ss                    ok
> read SCR              SCR = 0x07
> sd                    61

# so
the board shows the output of the port so far. Reply: the bytes; an empty line if there are none.
> so                    (empty)
> write THR 'a'         sent "a"
> write THR 'b'         sent "b"
> so                    6162
> so                    6162

# st
the board tells how often the interrupt line was called. Refused calls count too. Reply: sixteen digits.
> refuse 1
> st                    0000000000000000
> write IER THRE        ok; interrupt for THRE refused
> st                    0000000000000001
> write IER RDA         ok
> type a                1 byte received; interrupt for RDA
> st                    0000000000000002

# se
the board tells how often each event was reported. The events are RBR reads, bytes out, bytes lost, and RBR reads that
left no byte. Reply: four times sixteen digits.
> se                    0000000000000000 0000000000000000 0000000000000000 0000000000000000
> type abc              3 bytes received; no interrupt: IER does not enable RDA
> drain                 "abc"
> read RBR              RBR = 0x00  no byte was held
> source full           ...
> write THR 'a'         "a" lost: the output is full, with 256 bytes
> se                    0000000000000004 0000000000000100 0000000000000001 0000000000000002

# cr
the guest reads the clock at offset OOOO. Reply: the value, eight digits; invalid if the clock has nothing to read
there.
> cr 0000000000000064 0000  00000064
> cr 0000000000000064 001c  invalid

# cw
the guest writes VVVVVVVV at offset OOOO of the clock. Reply: ok; invalid if the clock has nothing to write there.
> cw 0000000000000064 0004 00000007  ok
> clock read MR         MR = 0x00000007
> cw 0000000000000064 0000 00000007  invalid

# kr
the guest reads the controller at offset OO. Reply: the byte.
> kr 04                 00

# kw
the guest writes VV at offset OO of the controller. The line kw 04 fe has the reset command. Reply: reset if the reset
line was called, otherwise ok.
> kw 04 fe              reset
> kw 04 ff              ok
> kw 05 fe              ok

# refuse
the calls that the interrupt line refuses. Only before every other call. The line refuses call k, from 0, if bit k of
the mask is set.
> refuse 5
> write IER THRE        ok; interrupt for THRE refused
> write THR 'a'         sent "a"
> read IIR              IIR = 0xc2  THRE
> write THR 'b'         sent "b"; interrupt for THRE
> read IIR              IIR = 0xc2  THRE
> write THR 'c'         sent "c"; interrupt for THRE refused
> read IIR              IIR = 0xc2  THRE
> write THR 'd'         sent "d"; interrupt for THRE
> refuse 1              a mask comes before every other line; reset begins anew

# si
the line is idle: RDA is raised again if bytes wait. Reply: ok, even if it raised nothing.
> si                    ok
> type a                1 byte received; no interrupt: IER does not enable RDA
> write IER RDA         ok; interrupt for RDA
> read IIR              IIR = 0xc4  RDA
> si                    ok
> read IIR              IIR = 0xc4  RDA

# sb
the board saves the port. Reply: the saved state.
> sb                    53494f53010109000c000001036008b000
> write SCR 7           ok
> sb                    53494f53010109000c000001036008b007

# sl
the board makes a new port from a saved state. The line has 0 to 128 bytes. Reply: ok, or why the bytes are no saved
state.
> write SCR 7           ok
> sl PORT               ok
> read SCR              SCR = 0x09
> sl                    too short
> sl 00                 too short
> sl Z128               not a saved state
> sl Z12800             the syntax is: sl HH..

# cb
the board saves the clock. Reply: the saved state.
> cb                    53494f530201190000000000000000000000000000000000000000000000000000
> clock write MR 7      ok, and no alarm: guest time 0x00000007, 1970-01-01 00:00:07 UTC, is past
> cb                    53494f530201190000000000070000000000000000000000000000000000000000

# cl
the board makes a new clock from a saved state. The line has 0 to 128 bytes. Reply: ok, or why the bytes are no saved
state.
> clock write MR 7      ok, and no alarm: guest time 0x00000007, 1970-01-01 00:00:07 UTC, is past
> cl CLOCK              ok
> clock read MR         MR = 0x00000009
> cl                    too short
> cl 00                 too short
> cl Z128               not a saved state
> cl Z12800             the syntax is: cl HH..

# view next
N calls forwards, or to the next WHAT: thre, rda, interrupt, refused, sent, input, timeout, reset, change, difference,
or an access of a register, as LSR.
> next 2                call 3 of 9, piece 1: sr 07  00
                        ...
> next                  call 4 of 9, piece 1: sq 61  01
                        ...
> first                 call 1 of 9, piece 1: refuse 0000000000000004
                        ...
> next interrupt        call 2 of 9, piece 1: sw 01 03  ok
                        ...
> next difference       call 3 of 9, piece 1: sr 07  00
                        ...
> next input            call 4 of 9, piece 1: sq 61  01
                        ...
> next refused          call 6 of 9, piece 1: sw 00 41  trigger
                        ...
> next timeout          call 7 of 9, piece 1: si  ok
                        ...
> next reset            call 8 of 9, piece 1: kw 04 fe  reset
                        ...
> next LSR              call 9 of 9, piece 1: sr 05  61
                        ...
> first                 call 1 of 9, piece 1: refuse 0000000000000004
                        ...
> next thre             call 2 of 9, piece 1: sw 01 03  ok
                        ...
> next rda              call 4 of 9, piece 1: sq 61  01
                        ...
> next sent             call 6 of 9, piece 1: sw 00 41  trigger
                        ...
> next change           call 7 of 9, piece 1: si  ok
                        ...

# view back
as next, backwards.
> last                  call 9 of 9, piece 1: sr 05  61
                        ...
> back 2                call 7 of 9, piece 1: si  ok
                        ...
> back                  call 6 of 9, piece 1: sw 00 41  trigger
                        ...
> back thre             call 2 of 9, piece 1: sw 01 03  ok
                        ...
> last                  call 9 of 9, piece 1: sr 05  61
                        ...
> back LSR              no LSR before

# view goto
to call N, counted from 1.
> goto 3                call 3 of 9, piece 1: sr 07  00
                        ...
> goto 1                call 1 of 9, piece 1: refuse 0000000000000004
                        ...
> goto 0                there is no call before
> goto 14               there is no call further on

# view first
to the first call.
> next 3                call 4 of 9, piece 1: sq 61  01
                        ...
> first                 call 1 of 9, piece 1: refuse 0000000000000004
                        ...

# view last
to the last call.
> last                  call 9 of 9, piece 1: sr 05  61
                        ...
> next                  there is no call further on

# view list
the calls around this one.
> goto 3                call 3 of 9, piece 1: sr 07  00
                        ...
> list                          1  refuse ...
                                2  sw 01 03               ...
                        >       3  sr 07                  ...
                                4  sq 61                  ...
                                5  sr 02                  ...
                                6  sw 00 41               ...
                                7  si                     ...
                                8  kw 04 fe               ...
                                9  sr 05                  ...

# view regs
every register after this call.
> goto 3                call 3 of 9, piece 1: sr 07  00
                        ...
> regs                  serial port
                          IER  0x03  RDA THRE
                          IIR  0xc2  THRE
                          LCR  0x03  8N1
                          MCR  0x08  OUT2
                          LSR  0x60  THRE TEMT
                          MSR  0xb0  CTS DSR DCD
                          SCR  0x00
                          divisor 12, FIFO 0 of 64
                          pending: THRE
                          line called 1 time, 0 bytes out
                        clock
                          MR   0x00000000
                          LR   0x00000000
                          IMSC 0x00000000
                          RIS  0x00000000
                          no alarm is set
                          interrupt line down

# view help
this list, or more about one command.
> help                  Commands
                        ...
                        help NAME says more. Ctrl-C drops a line, Ctrl-D ends.
> help list             list
                        the calls around this one.

# view quit
ends, as exit and Ctrl-D do.
> quit                  (end)
> exit                  (end)
> EOF                   (end)
"""

NOW = 1_700_000_000
WIDTH = 22   # of what is typed, before the reply
# What stands in a talk for a text that is long.
LONG = {"X128": "x" * 128, "Z128": "00" * 128, "PORT": Serial.from_state(SerialState(scratch=9)).to_bytes().hex(),
        "CLOCK": Rtc.from_state(RtcState(mr=9)).to_bytes().hex()}
# A file that fills the output, and the trace of the viewer.
FULL = "sw 00 61\n" * 256
TRACE = b"""\
refuse 0000000000000004
sw 01 03  ok
sr 07  01
sq 61  01
sr 02  c6
sw 00 41  trigger
si  ok
kw 04 fe  reset
sr 05  61
"""

SECTIONS = dict(re.findall(r"^# (.+)\n((?:(?!# ).*\n)+)", TALKS, re.M))


def blocks(section):
    """The sentences of each block, and its talk."""
    return [re.fullmatch(r"((?:(?![>@]).+\n)+)([>@](?:.+\n)+)", f"{block}\n").groups()
            for block in section.strip("\n").split("\n\n")]


def of_host(folder, words):
    """What a command of the host prints."""
    if words[0] == "cat":
        return (folder / words[1]).read_text("ascii")
    _, output, errors = run(*words[words[0] == "superio":], cwd=folder)
    return output + errors


def typed(talk):
    """The lines of a talk, each with the sign before it."""
    return [re.split(" {2,}", row)[0] for row in talk.splitlines() if row[:2] in ("> ", "$ ")]


def talked(folder, is_viewer, lines):
    """A talk of these lines, in a new session, with what is said now."""
    out, rows = io.StringIO(), []
    prompt = (Viewer([*replay("trace", TRACE.splitlines(keepends=True))], "trace", out) if is_viewer else
              Session(out, host_time=lambda: NOW))
    prompt.prompt = ""
    for line in lines:
        out.seek(0)
        out.truncate()
        if line[0] == "$":
            out.write(of_host(folder, line[2:].split()))
        else:
            text = re.sub("|".join(LONG), lambda match: LONG[match[0]], line[2:])
            with redirect_stderr(out):
                out.write("(end)" * prompt.onecmd(text))
        said = [row.strip() and row or "(empty)" for row in out.getvalue().splitlines()] or [""]
        rows += [f"{start:<{WIDTH}}  {row}".rstrip() for start, row in zip([line, *[""] * len(said)], said)]
    return "".join(f"{row}\n" for row in rows)


def replies(prompt, line):
    """The rows that a prompt says to a line."""
    prompt.stdout = io.StringIO()
    prompt.onecmd(line)
    return prompt.stdout.getvalue().splitlines()


def helped(prompt, prefix):
    """What `help` prints of each command of a prompt, below its usage."""
    names = [entry.name for group in prompt.groups.values() for entry in group]
    return {f"{prefix}{name}": " ".join(replies(prompt, f"help {name}")[1:]) for name in names}


class Helped(FolderTest):
    maxDiff = None

    def test_each_sentence_is_one_of_the_talks(self):
        shell, viewer = Session(None), Viewer([], "trace", None)
        besides = {"(groups)": " ".join(f"{title}." for title in shell.groups), "(end)": replies(shell, "help")[-1]}
        self.assertEqual({**besides, **helped(shell, ""), **helped(viewer, "view ")},
                         {name: " ".join(" ".join(text for text, _ in blocks(section)).split())
                          for name, section in SECTIONS.items()})

    def test_the_list_has_the_first_sentence_of_each_command(self):
        for prompt in (Session(None), Viewer([], "trace", None)):
            listed = "\n".join(replies(prompt, "help"))
            for group in prompt.groups.values():
                for entry in group:
                    self.assertRegex(listed, rf"(?m)^  {re.escape(entry.usage)}\s+{re.escape(entry.about)}$")

    def test_each_talk_shows_what_the_help_says(self):
        self.addCleanup(os.chdir, os.getcwd())
        os.chdir(self.folder)
        matches = doctest.OutputChecker().check_output
        for name, section in SECTIONS.items():
            for sentences, talk in blocks(section):
                (self.folder / "full").write_text(FULL, "ascii")
                with self.subTest(sentences):
                    lines = typed(talk)
                    now = talked(self.folder, name.startswith("view "), lines) if lines else talk
                    self.assertTrue(matches(talk, now, doctest.ELLIPSIS), f"{name}: {sentences}\n{now}")
