main:
    addi sp,sp,-16
    sd ra,8(sp)
    sd s0,0(sp)
    addi s0,sp,16
    li a0,255
    li a1,0
    li a2,0
    li a3,0
    call solve
    call putd
    li a0,10
    call st_putc
    li a0,0
    ld ra,8(sp)
    ld s0,0(sp)
    addi sp,sp,16
    ret
solve:
    .st_args 4,0
    addi sp,sp,-16
    sd ra,8(sp)
    sd s0,0(sp)
    addi s0,sp,16
    bne a1,a0,.Lopen
    li a0,1
    j .Ldone
.Lopen:
    or t0,a1,a2
    or t0,t0,a3
    not t0,t0
    and a4,a0,t0
    call try
.Ldone:
    ld ra,8(sp)
    ld s0,0(sp)
    addi sp,sp,16
    ret
try:
    .st_args 5,0
    addi sp,sp,-64
    sd ra,56(sp)
    sd s0,48(sp)
    sd s1,40(sp)
    sd s2,32(sp)
    sd s3,24(sp)
    sd s4,16(sp)
    sd s5,8(sp)
    sd s8,0(sp)
    addi s0,sp,64
    bnez a4,.Lplace
    li a0,0
    j .Lout
.Lplace:
    mv s1,a0
    mv s2,a1
    mv s3,a2
    mv s4,a3
    neg t0,a4
    and t0,a4,t0
    xor s5,a4,t0
    or a1,s2,t0
    or a2,s3,t0
    slli a2,a2,1
    and a2,a2,s1
    or a3,s4,t0
    srli a3,a3,1
    .st_fork s8
    call solve
    mv a0,s1
    mv a1,s2
    mv a2,s3
    mv a3,s4
    mv a4,s5
    call try
    mv s1,a0
    mv a6,s8
    call st_touch
    add a0,a0,s1
.Lout:
    ld ra,56(sp)
    ld s0,48(sp)
    ld s1,40(sp)
    ld s2,32(sp)
    ld s3,24(sp)
    ld s4,16(sp)
    ld s5,8(sp)
    ld s8,0(sp)
    addi sp,sp,64
    ret
