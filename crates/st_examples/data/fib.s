main:
    .st_args 1,0
    addi sp,sp,-48
    sd ra,40(sp)
    sd s0,32(sp)
    sd s1,24(sp)
    sd s2,16(sp)
    sd s3,8(sp)
    addi s0,sp,48
    li s1,0
    li s2,0x40000000
    add s3,s2,a0
.Lread:
    bgeu s2,s3,.Lgo
    lbu t0,0(s2)
    addi t0,t0,-48
    sltiu t1,t0,10
    beqz t1,.Lgo
    li t1,10
    mul s1,s1,t1
    add s1,s1,t0
    addi s2,s2,1
    j .Lread
.Lgo:
    mv a0,s1
    call fib
    call putd
    li a0,10
    call st_putc
    li a0,0
    ld ra,40(sp)
    ld s0,32(sp)
    ld s1,24(sp)
    ld s2,16(sp)
    ld s3,8(sp)
    addi sp,sp,48
    ret
fib:
    .st_args 1,0
    addi sp,sp,-32
    sd ra,24(sp)
    sd s0,16(sp)
    sd s1,8(sp)
    sd s8,0(sp)
    addi s0,sp,32
    li t0,2
    bltu a0,t0,.Lleaf
    mv s1,a0
    addi a0,s1,-1
    .st_fork s8
    call fib
    addi a0,s1,-2
    call fib
    mv s1,a0
    mv a6,s8
    call st_touch
    add a0,a0,s1
.Lleaf:
    ld ra,24(sp)
    ld s0,16(sp)
    ld s1,8(sp)
    ld s8,0(sp)
    addi sp,sp,32
    ret
