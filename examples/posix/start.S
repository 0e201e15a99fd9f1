# Where a program with a C library begins, and where each of its threads does.
#
# The machine begins a thread with every register zero, but sp, the end of its tile's stack, and a0, its argument.
# Each thread gets its thread-local variables at the end of its stack: a copy of .tdata, and zeros for .tbss. tp is
# where they begin.

    .macro set_gp
    .option push
    .option norelax
    lla gp, __global_pointer$
    .option pop
    .endm

# Makes room for the thread-local variables, and fills it. Changes t0 to t3. Sizes are multiples of 8.
    .macro set_tp
    la t0, tls_bytes
    sub sp, sp, t0
    andi sp, sp, -64
    mv tp, sp
    lla t0, tls_start
    lla t1, tls_filled_end
    mv t2, tp
1:  bgeu t0, t1, 2f
    ld t3, 0(t0)
    sd t3, 0(t2)
    addi t0, t0, 8
    addi t2, t2, 8
    j 1b
2:  la t1, tls_bytes
    add t1, t1, tp
3:  bgeu t2, t1, 4f
    sd zero, 0(t2)
    addi t2, t2, 8
    j 3b
4:
    .endm

    .section .text.start, "ax"
    .globl _start
    .type _start, @function
_start:
    set_gp
    set_tp
    call program_begin
    .size _start, . - _start

# A thread of pthread_create: a0 is its descriptor.
    .text
    .globl thread_entry
    .type thread_entry, @function
    .balign 4
thread_entry:
    set_gp
    set_tp
    call thread_begin
    .size thread_entry, . - thread_entry
