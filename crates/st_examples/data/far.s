main:
    .st_args 1,0
    addi sp,sp,-16
    sd ra,8(sp)
    sd s0,0(sp)
    addi s0,sp,16
    beqz a0,.Lend
    nop
    ld ra,8(sp)
    ld s0,0(sp)
    addi sp,sp,16
    ret
.Lend:
    ld ra,8(sp)
    ld s0,0(sp)
    addi sp,sp,16
    ret
