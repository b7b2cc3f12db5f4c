main:
    addi sp,sp,-32
    sd ra,24(sp)
    sd s0,16(sp)
    sd s8,8(sp)
    addi s0,sp,32
    li a0,65
    call st_putc
    .st_fork s8
    call bad
    li a0,66
    call st_putc
    li a0,0
    ld ra,24(sp)
    ld s0,16(sp)
    ld s8,8(sp)
    addi sp,sp,32
    ret
bad:
    addi sp,sp,-16
    sd ra,8(sp)
    sd s0,0(sp)
    addi s0,sp,16
    ebreak
