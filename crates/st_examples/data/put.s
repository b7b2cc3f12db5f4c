putd:
    .st_args 1,0
    addi sp,sp,-32
    sd ra,24(sp)
    sd s0,16(sp)
    sd s1,8(sp)
    addi s0,sp,32
    mv s1,a0
    li t0,10
    divu a0,s1,t0
    beqz a0,.Ld
    call putd
.Ld:
    li t0,10
    remu a0,s1,t0
    addi a0,a0,48
    call st_putc
    li a0,0
    ld ra,24(sp)
    ld s0,16(sp)
    ld s1,8(sp)
    addi sp,sp,32
    ret
