# An endless loop with one place that the static key `k` switches: a NOP while the key is off, a jump to the next instruction
# while it is on.
# gcc -c spin.s && ld -N -Ttext=0x401000 -e f -o spin.module spin.o
        .text
        .globl  f
        .type   f, @function
f:      .byte   0x0f, 0x1f, 0x44, 0x00, 0x00      # NOP of five bytes: a jump to 2 where the key is on
2:      jmp     f
        .size   f, . - f

        .section __jump_table, "aw"                # as `arch/x86/include/asm/jump_label.h` of Linux makes it
        .balign 8
        .long   f - ., 2b - .
        .quad   k - .

        .data
        .globl  k
        .type   k, @object
        .balign 8
k:      .quad   0, 0                               # struct static_key: a count of 0
        .size   k, 16
        .section .note.GNU-stack, "", @progbits
