# Where a program begins, and where each of its threads does.
#
# The machine begins a thread with every register zero, but sp, which is 64 bytes below the end of its tile's
# stack, and a0, its argument. Linkers shorten accesses to data near __global_pointer$ to offsets from gp, so
# gp is set before anything else. The two lines that set it must not be shortened themselves: norelax.

    .macro set_gp
    .option push
    .option norelax
    lla gp, __global_pointer$
    .option pop
    .endm

# The program: calls main, and ends with the low byte of its result, whatever other threads do.
    .section .text.start, "ax"
    .globl _start
    .type _start, @function
_start:
    set_gp
    call main
    li a7, 94               # exit_group
    ecall
    .size _start, . - _start

# A thread: a0 is its `struct thread` (tilesim.h), which begins with the function and its argument. It exits
# with the low byte of the function's result.
    .text
    .globl thread_entry
    .type thread_entry, @function
    .balign 4
thread_entry:
    set_gp
    ld t0, 0(a0)            # the function
    ld a0, 8(a0)            # its argument
    jalr t0
    li a7, 93               # exit
    ecall
    .size thread_entry, . - thread_entry
