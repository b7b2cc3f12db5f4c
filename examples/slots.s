# Keeps the handle of a future and a number in the frame, while another future is awaited.
main:
    .st_handles 1           # one handle slot, at the low end of the frame: -48(s0)
    addi sp,sp,-48
    sd ra,40(sp)
    sd s0,32(sp)
    sd s8,24(sp)
    addi s0,sp,48
    li a0,1
    .st_fork s8
    call digit
    sd s8,-48(s0)           # the first future's handle, in the handle slot
    li t0,10
    sd t0,-40(s0)           # an integer slot, between the handle slots and the saved registers
    li a0,2
    .st_fork s8             # s8 names the second future from here on
    call digit
    mv a6,s8
    call st_touch
    call st_putc            # 2
    ld a6,-48(s0)
    call st_touch
    call st_putc            # 1
    ld a0,-40(s0)
    call st_putc            # a line end
    li a0,0
    ld ra,40(sp)
    ld s0,32(sp)
    ld s8,24(sp)
    addi sp,sp,48
    ret

# the digit of a number below 10
digit:
    .st_args 1,0
    addi sp,sp,-16
    sd ra,8(sp)
    sd s0,0(sp)
    addi s0,sp,16
    addi a0,a0,48
    ld ra,8(sp)
    ld s0,0(sp)
    addi sp,sp,16
    ret
