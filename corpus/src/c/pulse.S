/* Debug data written by hand, as by a toolchain that pads the operand of opcode 3 (advance line) to ten bytes. It is a signed
   LEB128 number (DWARF 5, 6.2.5.2 and 7.6): the tenth byte is 00 after nine of a number that is not negative, 7f after nine of
   a negative one. Its columns reach and pass 65,535, which no compiler here writes. VERSION, 4 or 5, is that of the unit and of its
   line program. */

/* Opcode 3 with n, 0 to 127, and with -n, 1 to 127. */
#define UP(n) .byte 3, 0x80 | n, 0x80, 0x80, 0x80, 0x80, 0x80, 0x80, 0x80, 0x80, 0x00
#define DOWN(n) .byte 3, 0x80 | (0x80 - n), 0xff, 0xff, 0xff, 0xff, 0xff, 0xff, 0xff, 0xff, 0x7f

#define START(address) .byte 0, 9, 2; .quad address
#define ADVANCE(from, to) .byte 2; .uleb128 to - from
#define COPY .byte 1
#define COLUMN(n) .byte 5; .uleb128 n
#define END .byte 0, 1, 1

        .text
        .globl pulse
        .type pulse, @function
pulse:
        movl $255, %eax
pulse_less:
        subl %edi, %eax
pulse_kept:
        jns pulse_back
pulse_none:
        xorl %eax, %eax
pulse_back:
        ret
pulse_end:
        .size pulse, . - pulse

        .globl beat
        .type beat, @function
beat:
        incl %edi
beat_on:
        nop
beat_go:
        jmp pulse
beat_end:
        .size beat, . - beat

        .section .debug_line, "", @progbits
line_start:
        .long line_end - line_version
line_version:
        .short VERSION
#if VERSION == 5
        .byte 8, 0                      /* sizes of an address and of a segment selector */
#endif
        .long program - line_header
line_header:
        .byte 1, 1, 1, -5, 14, 13       /* instruction length, operations, statement flag, line base, line range, opcode base */
        .byte 0, 1, 1, 1, 1, 0, 0, 0, 1, 0, 0, 1
#if VERSION == 5
        .byte 1, 1, 8                   /* a directory is a path, a string */
        .byte 2
        .asciz "/rig", "beats"
        .byte 2, 1, 8, 2, 0x0b          /* a file is a path and a directory of one byte */
        .byte 2
        .asciz "pulse.rig"
        .byte 0
        .asciz "beat.rig"
        .byte 1
#define FIRST 0
#define SECOND 1
#else
        .asciz "beats", ""
        .asciz "pulse.rig"
        .byte 0, 0, 0                   /* directory, time, length */
        .asciz "beat.rig"
        .byte 1, 0, 0
        .byte 0
#define FIRST 1
#define SECOND 2
#endif
program:
        START(pulse)
        .byte 4, FIRST
        UP(41)                          /* line 42 */
        COLUMN(5)
        COPY
        ADVANCE(pulse, pulse_less)
        DOWN(3)                         /* line 39 */
        COLUMN(65534)
        COPY
        ADVANCE(pulse_less, pulse_kept)
        UP(64)                          /* line 103 */
        COLUMN(65535)
        COPY
        ADVANCE(pulse_kept, pulse_none)
        DOWN(65)                        /* line 38 */
        COLUMN(65536)
        COPY
        .byte 3, 0x7e                   /* line 36, not padded */
        COLUMN(70001)
        .byte 13 + 14 * 2 + 5           /* 2 bytes on */
        ADVANCE(pulse_back, pulse_end)
        END
        START(beat)
        .byte 4, SECOND
        UP(127)                         /* line 128 */
        COPY
        DOWN(127)                       /* line 1 */
        UP(0)
        UP(6)                           /* line 7 */
        ADVANCE(beat, beat_on)
        COLUMN(0xffffffffffffffff)
        COPY
        DOWN(1)                         /* line 6 */
        COLUMN(0)
        .byte 13 + 14 * 1 + 7           /* 1 byte on, line 8 */
        ADVANCE(beat_go, beat_end)
        END
line_end:

        .section .debug_abbrev, "", @progbits
abbreviations:
        .byte 1, 0x11, 1                /* a compile unit with children: name, directory, language, lines, low, high */
        .byte 0x03, 8, 0x1b, 8, 0x13, 5, 0x10, 0x17, 0x11, 1, 0x12, 7, 0, 0
        .byte 2, 0x2e, 0                /* a subprogram: name, external, file, line, low, high */
        .byte 0x03, 8, 0x3f, 0x19, 0x3a, 0x0b, 0x3b, 0x0b, 0x11, 1, 0x12, 7, 0, 0
        .byte 0

        .section .debug_info, "", @progbits
        .long info_end - info_version
info_version:
        .short VERSION
#if VERSION == 5
        .byte 1, 8
        .long abbreviations
#else
        .long abbreviations
        .byte 8
#endif
        .byte 1
        .asciz "pulse.rig", "/rig"
        .short 0x8001
        .long line_start
        .quad pulse, beat_end - pulse
        .byte 2
        .asciz "pulse"
        .byte FIRST, 42
        .quad pulse, pulse_end - pulse
        .byte 2
        .asciz "beat"
        .byte SECOND, 128
        .quad beat, beat_end - beat
        .byte 0
info_end:
        .section .note.GNU-stack, "", @progbits
