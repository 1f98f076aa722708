# Where a process with a C library begins, and each of its threads. All registers are 0 there but
# pc, sp and, in a thread, a0. gp comes first, since GNU ld shortens accesses to small data by going
# through it, and tp is where the thread's own thread-local variables lie.

    .macro set_gp
    .option push
    .option norelax
    la      gp, __global_pointer$
    .option pop
    .endm

# The entry of the image.
    .section .text.start, "ax", @progbits
    .globl  _start
_start:
    set_gp
    la      tp, __first_tls
    la      sp, __stack_top
    tail    process_body

# The entry of a thread that thrd_create made: a0 is its struct thread, whose first word is its tp,
# and sp is the top of its stack.
    .section .text.thread_entry, "ax", @progbits
    .globl  thread_entry
    .balign 4
thread_entry:
    set_gp
    lw      tp, 0(a0)
    tail    thread_body

# The attached input, empty until libc/attach puts a file here: its length in bytes, then the bytes.
    .section .attached_input, "a", @progbits
    .globl  attached_input
attached_input:
    .word   0
