# putd prints the decimal digits of a0.
putd:
    .st_args 1,0            # one integer, in a0, and no handle
    addi sp,sp,-32
    sd ra,24(sp)
    sd s0,16(sp)
    sd s1,8(sp)             # s1 is saved, so the body may write it
    addi s0,sp,32
    mv s1,a0                # a call takes away a0 to a7 and t0 to t5
    li t0,10
    divu a0,s1,t0           # all digits but the last
    beqz a0,.Ld
    call putd               # are printed first
.Ld:
    li t0,10
    remu a0,s1,t0           # the last digit
    addi a0,a0,48
    call st_putc
    li a0,0
    ld ra,24(sp)
    ld s0,16(sp)
    ld s1,8(sp)
    addi sp,sp,32
    ret
