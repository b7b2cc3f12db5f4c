# Reads a number n from the input and prints the n-th Fibonacci number. Each left branch is a thread of its own.
main:
    .st_args 1,0            # the length of the input, in a0
    addi sp,sp,-48
    sd ra,40(sp)
    sd s0,32(sp)
    sd s1,24(sp)
    sd s2,16(sp)
    sd s3,8(sp)
    addi s0,sp,48
    li s1,0
    li s2,0x40000000        # where the input begins
    add s3,s2,a0            # and where it ends
.Lread:
    bgeu s2,s3,.Lgo
    lbu t0,0(s2)            # a byte of the input
    addi t0,t0,-48
    sltiu t1,t0,10          # is it a digit?
    beqz t1,.Lgo
    li t1,10
    mul s1,s1,t1            # the number so far
    add s1,s1,t0
    addi s2,s2,1
    j .Lread
.Lgo:
    mv a0,s1
    call fib
    call putd               # of put.s
    li a0,10
    call st_putc
    li a0,0
    ld ra,40(sp)
    ld s0,32(sp)
    ld s1,24(sp)
    ld s2,16(sp)
    ld s3,8(sp)
    addi sp,sp,48
    ret
fib:
    .st_args 1,0
    addi sp,sp,-32
    sd ra,24(sp)
    sd s0,16(sp)
    sd s1,8(sp)
    sd s8,0(sp)
    addi s0,sp,32
    li t0,2
    bltu a0,t0,.Lleaf       # below 2 it gives a0 as it is
    mv s1,a0
    addi a0,s1,-1
    .st_fork s8             # the next call is a thread; s8 names its future
    call fib
    addi a0,s1,-2
    call fib
    mv s1,a0
    mv a6,s8                # the runtime takes the future in a6
    call st_touch           # its value, once it has ended
    add a0,a0,s1            # and the sum is what fib gives
.Lleaf:
    ld ra,24(sp)
    ld s0,16(sp)
    ld s1,8(sp)
    ld s8,0(sp)
    addi sp,sp,32
    ret
