main:
    addi sp,sp,-32
    sd ra,24(sp)
    sd s0,16(sp)
    sd s8,8(sp)
    sd s9,0(sp)
    addi s0,sp,32
    call st_counter
    mv s8,a6
    .st_fork s9
    call child
    mv a6,s8
    call st_done
    li a0,65
    call st_putc
    li a0,0
    ld ra,24(sp)
    ld s0,16(sp)
    ld s8,8(sp)
    ld s9,0(sp)
    addi sp,sp,32
    ret
child:
    .st_args 0,1
    addi sp,sp,-16
    sd ra,8(sp)
    sd s0,0(sp)
    addi s0,sp,16
    li a0,1
    call st_join
    li a0,0
    ld ra,8(sp)
    ld s0,0(sp)
    addi sp,sp,16
    ret
