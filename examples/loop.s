# A loop with one place that the static key `k` switches: a NOP while the key is off, a jump past the loop and back while it is on.
# gcc -c loop.s && ld -N -Ttext=0x401000 -e f -o loop.module loop.o
        .text
        .globl  f
        .type   f, @function
f:      movl    $3, %ecx
1:      .byte   0x0f, 0x1f, 0x44, 0x00, 0x00      # NOP of five bytes: a jump to 3 where the key is on
2:      decl    %ecx
        jne     1b
        ret
3:      incl    %eax
        jmp     2b
        .size   f, . - f

        .section __jump_table, "aw"                # as `arch/x86/include/asm/jump_label.h` of Linux makes it
        .balign 8
        .long   1b - ., 3b - .
        .quad   k - .

        .data
        .globl  k
        .type   k, @object
        .balign 8
k:      .quad   0, 0                               # struct static_key: a count of 0
        .size   k, 16
        .section .note.GNU-stack, "", @progbits
