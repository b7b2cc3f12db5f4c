# Is refused: what t0 had is gone after a call, so the path below reads something undefined.
main:
    addi sp,sp,-16
    sd ra,8(sp)
    sd s0,0(sp)
    addi s0,sp,16
    li t0,33
    li a0,72
    call st_putc            # takes away a0 to a7, t0 to t5 and ra
    mv a0,t0                # refused here; s1, saved by the prologue, would have kept it
    call st_putc
    li a0,0
    ld ra,8(sp)
    ld s0,0(sp)
    addi sp,sp,16
    ret
