main:
    .st_args 1,0
    addi sp,sp,-32
    sd ra,24(sp)
    sd s0,16(sp)
    sd s1,8(sp)
    sd s8,0(sp)
    addi s0,sp,32
    mv s1,a0
.L0:
    beqz s1,.L1
    .st_fork s8
    call f
    addi s1,s1,-1
    j .L0
.L1:
    li a0,0
    ld ra,24(sp)
    ld s0,16(sp)
    ld s1,8(sp)
    ld s8,0(sp)
    addi sp,sp,32
    ret
f:
    addi sp,sp,-16
    sd ra,8(sp)
    sd s0,0(sp)
    addi s0,sp,16
    li a0,0
    ld ra,8(sp)
    ld s0,0(sp)
    addi sp,sp,16
    ret
