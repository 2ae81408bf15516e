# Rows with every flag and register that `.loc` can set, for x86-64.
        .file 0 "/boxantrel" "flags.s"
        .file 1 "first.y"
        .file 2 "parts" "second.y"
        .text
        .globl _start
_start:
        .loc 1 1 1
        nop
        .loc 1 2 5 basic_block
        nop
        .loc 1 3 9 prologue_end
        nop
        .loc 1 4 9 epilogue_begin is_stmt 0
        nop
        .loc 1 5 200 is_stmt 1 isa 3
        nop
        .loc 1 5 200 discriminator 7
        nop
        .loc 1 6 1 basic_block prologue_end epilogue_begin discriminator 300 isa 0
        nop
        .loc 1 1000000 70000
        nop
        .loc 2 2 0 is_stmt 0
        .fill 300, 1, 0x90
        .loc 2 1 0 is_stmt 1
        .fill 18, 1, 0x90
        .loc 2 0 0
        .fill 70000, 1, 0x90
        .loc 1 7 0
        ret

        .section .text.other, "ax"
        .loc 2 30 4
        nop
        .loc 2 31 4
        ret
