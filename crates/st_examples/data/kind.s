main:
    addi sp,sp,-32
    sd ra,24(sp)
    sd s0,16(sp)
    addi s0,sp,32
    call st_counter
    nop
    call st_touch
    ld ra,24(sp)
    ld s0,16(sp)
    addi sp,sp,32
    ret
