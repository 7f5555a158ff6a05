# A function with one place that the static key `k` switches: `f` shows 1 while the key is off, 2 while it is on.
# gcc -c switch.s && ld -Ttext=0x401000 -e f -o switch.module switch.o
        .text
        .globl  f
        .type   f, @function
f:
1:      .byte   0x0f, 0x1f, 0x44, 0x00, 0x00      # NOP of five bytes: a jump to 2 where the key is on
        movl    $1, %eax
        outb    %al, $0x10
        ret
2:      movl    $2, %eax
        outb    %al, $0x10
        ret
        .size   f, . - f

        .section __jump_table, "aw"                # as `arch/x86/include/asm/jump_label.h` of Linux makes it
        .balign 8
        .long   1b - ., 2b - .
        .quad   k - .

        .data
        .globl  k
        .type   k, @object
        .balign 8
k:      .quad   0, 0                               # struct static_key: a count of 0
        .size   k, 16
        .section .note.GNU-stack, "", @progbits
