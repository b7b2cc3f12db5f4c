main:
    addi sp,sp,-32
    sd ra,24(sp)
    sd s0,16(sp)
    sd s8,8(sp)
    addi s0,sp,32
    .st_fork s8
    call f
    li a0,0
    ld ra,24(sp)
    ld s0,16(sp)
    ld s8,8(sp)
    addi sp,sp,32
    ret
f:
    addi sp,sp,-32
    sd ra,24(sp)
    sd s0,16(sp)
    sd s1,8(sp)
    addi s0,sp,32
    li s1,1000000
.L0:
    call st_poll
    addi s1,s1,-1
    bnez s1,.L0
    li a0,0
    ld ra,24(sp)
    ld s0,16(sp)
    ld s1,8(sp)
    addi sp,sp,32
    ret
