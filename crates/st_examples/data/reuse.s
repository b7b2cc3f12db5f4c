main:
    .st_args 1,0
    addi sp,sp,-48
    sd ra,40(sp)
    sd s0,32(sp)
    sd s1,24(sp)
    sd s8,16(sp)
    sd s9,8(sp)
    addi s0,sp,48
    mv s1,a0
.L0:
    beqz s1,.L1
    call st_counter
    mv s8,a6
    .st_fork s9
    call child
    mv a6,s8
    call st_done
    mv a6,s9
    call st_touch
    addi s1,s1,-1
    j .L0
.L1:
    li a0,0
    ld ra,40(sp)
    ld s0,32(sp)
    ld s1,24(sp)
    ld s8,16(sp)
    ld s9,8(sp)
    addi sp,sp,48
    ret
child:
    .st_args 0,1
    addi sp,sp,-16
    sd ra,8(sp)
    sd s0,0(sp)
    addi s0,sp,16
    li a0,1
    call st_join
    li a0,0
    ld ra,8(sp)
    ld s0,0(sp)
    addi sp,sp,16
    ret
