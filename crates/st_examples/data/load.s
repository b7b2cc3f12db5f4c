main:
    addi sp,sp,-16
    sd ra,8(sp)
    sd s0,0(sp)
    addi s0,sp,16
    li t0,0x40000000
    lb a0,0(t0)
    ld ra,8(sp)
    ld s0,0(sp)
    addi sp,sp,16
    ret
