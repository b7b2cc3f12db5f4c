main:
    .st_args 1,0
    addi sp,sp,-16
    sd ra,8(sp)
    sd s0,0(sp)
    addi s0,sp,16
    call f
    ld ra,8(sp)
    ld s0,0(sp)
    addi sp,sp,16
    ret
f:
    .st_args 1,0
    addi sp,sp,-16
    sd ra,8(sp)
    sd s0,0(sp)
    addi s0,sp,16
    beqz a0,.L0
    addi a0,a0,-1
    call f
.L0:
    ld ra,8(sp)
    ld s0,0(sp)
    addi sp,sp,16
    ret
