/* Assembly with debug data: the assembler describes the files, lines and functions. */
        .text
        .globl strobe_on
        .type strobe_on, @function
strobe_on:
        movl $255, %eax
        ret
        .size strobe_on, . - strobe_on

        .globl strobe_count
        .type strobe_count, @function
strobe_count:
        xorl %eax, %eax
1:      addl $1, %eax
        cmpl %edi, %eax
        jne 1b
        ret
        .size strobe_count, . - strobe_count

        .section .text.slow, "ax", @progbits
        .globl strobe_slow
        .type strobe_slow, @function
strobe_slow:
        nop
        jmp strobe_on
        .size strobe_slow, . - strobe_slow
        .section .note.GNU-stack, "", @progbits
