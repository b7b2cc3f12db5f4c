# Prints Hi: a byte of its own, and one that a function gives.
main:
    addi sp,sp,-16          # the prologue: a frame of 16 bytes
    sd ra,8(sp)             # the return word, at its top
    sd s0,0(sp)             # the frame pointer of the caller
    addi s0,sp,16           # the frame pointer of this frame
    li a0,72                # H
    call st_putc            # a call of the runtime: prints the low byte of a0
    call f                  # gives 105, an i, in a0
    call st_putc
    li a0,0                 # each function gives one integer, main too
    ld ra,8(sp)             # the epilogue takes back what the prologue kept
    ld s0,0(sp)
    addi sp,sp,16
    ret
f:
    addi sp,sp,-16
    sd ra,8(sp)
    sd s0,0(sp)
    addi s0,sp,16
    li a0,100               # a0 is what f gives
    addi a0,a0,5
    ld ra,8(sp)
    ld s0,0(sp)
    addi sp,sp,16
    ret
