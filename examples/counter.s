# Two children count at a counter of the root. The root waits until both have counted, then prints what they give.
main:
    addi sp,sp,-48          # a frame of 48 bytes: two words, three saved registers, filled up to a multiple of 16
    sd ra,40(sp)            # the return word, at the top of each frame
    sd s0,32(sp)            # the caller's frame pointer
    sd s8,24(sp)            # saved registers, in ascending order
    sd s9,16(sp)
    sd s10,8(sp)
    addi s0,sp,48           # the frame pointer: the end of the prologue
    call st_counter         # a6: a new counter, at 0
    mv s8,a6                # handles are kept in s8 to s11
    li a0,65                # the child's integer argument
    mv a6,s8                # and its handle
    .st_fork s9             # the next call is a thread: s9 names its future
    call work
    li a0,66
    mv a6,s8
    .st_fork s10
    call work
    mv a6,s8
    li a0,2
    call st_join            # goes on where the counter has at least 2
    mv a6,s9
    call st_touch           # a0: the value of the first child
    call st_putc
    mv a6,s10
    call st_touch
    call st_putc
    li a0,10
    call st_putc
    li a0,0                 # each function gives one integer in a0
    ld ra,40(sp)            # the epilogue takes back what the prologue kept
    ld s0,32(sp)
    ld s8,24(sp)
    ld s9,16(sp)
    ld s10,8(sp)
    addi sp,sp,48
    ret

# counts once, and gives its argument and 1
work:
    .st_args 1,1            # an integer in a0, a handle in a6
    addi sp,sp,-32
    sd ra,24(sp)
    sd s0,16(sp)
    sd s1,8(sp)
    addi s0,sp,32
    mv s1,a0                # a call takes away a0 to a7 and t0 to t5, so it is kept in s1
    call st_done            # adds 1 to the counter in a6
    addi a0,s1,1
    ld ra,24(sp)
    ld s0,16(sp)
    ld s1,8(sp)
    addi sp,sp,32
    ret
