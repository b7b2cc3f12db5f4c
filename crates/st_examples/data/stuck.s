main:
    addi sp,sp,-32
    sd ra,24(sp)
    sd s0,16(sp)
    sd s8,8(sp)
    addi s0,sp,32
    call st_counter
    mv s8,a6
    call st_done
    mv a6,s8
    call st_done
    mv a6,s8
    li a0,3
    call st_join
    li a0,0
    ld ra,24(sp)
    ld s0,16(sp)
    ld s8,8(sp)
    addi sp,sp,32
    ret
