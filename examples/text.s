# Prints a text of the read-only data.
    .section .rodata
words:
    .string "read-only data\n"

    .text
main:
    addi sp,sp,-32
    sd ra,24(sp)
    sd s0,16(sp)
    sd s1,8(sp)
    addi s0,sp,32
    la s1,words             # the address of the first byte
.Lnext:
    lbu a0,0(s1)            # a load of data goes through an integer register
    beqz a0,.Lend           # .string ends with a zero byte
    call st_putc
    addi s1,s1,1            # s1 outlives calls, since the prologue saved it
    j .Lnext
.Lend:
    li a0,0
    ld ra,24(sp)
    ld s0,16(sp)
    ld s1,8(sp)
    addi sp,sp,32
    ret
