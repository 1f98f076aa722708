# Where a process and each of its threads begin. All registers are 0 there but pc, sp and, in a thread, a0. GNU ld
# shortens accesses to small data by going through gp, so gp is set before any C runs: here for the first thread, and
# once more for each further thread, since each has registers of its own.

    .macro set_gp
    .option push
    .option norelax
    la      gp, __global_pointer$
    .option pop
    .endm

# The entry of the image. main's value is the status of the process; with it all its threads end.
    .section .text.start, "ax", @progbits
    .globl  _start
_start:
    set_gp
    call    main
    li      a7, 2
    ecall

# The entry of a thread that thread_start made: a0 is its place in the pool, and sp the top of its stack.
    .section .text.thread_entry, "ax", @progbits
    .globl  thread_entry
    .balign 4
thread_entry:
    set_gp
    tail    thread_body

# Where each signal's handler begins: a0 is the signal, and all other registers are those of the thread that it came to,
# wherever it was. sig_return gives all of them back, so none is saved here; sp is made a multiple of 16, as C wants it.
    .section .text.signal_entry, "ax", @progbits
    .globl  signal_entry
    .balign 4
signal_entry:
    set_gp
    andi    sp, sp, -16
    la      t0, signal_handlers
    slli    t1, a0, 2
    add     t0, t0, t1
    lw      t0, 0(t0)
    jalr    t0
    li      a7, 18
    ecall
