/*
 * A program without a C library, for Linux on the four processors: its entry, system calls, and a
 * call on another stack.
 *
 *     long system_call(long number, long a, long b, long c)
 *     void call_on(void (*function)(void), void *top)
 */
#if defined(__x86_64__)
    .globl _start
_start:
    mov %rsp, %rdi
    and $-16, %rsp
    call start
    .globl system_call
system_call:
    mov %rdi, %rax
    mov %rsi, %rdi
    mov %rdx, %rsi
    mov %rcx, %rdx
    syscall
    ret
    .globl call_on
call_on:
    push %rbp
    mov %rsp, %rbp
    mov %rsi, %rsp
    call *%rdi
    mov %rbp, %rsp
    pop %rbp
    ret
#elif defined(__aarch64__)
    .globl _start
_start:
    mov x0, sp
    bl start
    .globl system_call
system_call:
    mov x8, x0
    mov x0, x1
    mov x1, x2
    mov x2, x3
    svc #0
    ret
    .globl call_on
call_on:
    stp x29, x30, [sp, #-16]!
    mov x29, sp
    mov sp, x1
    blr x0
    mov sp, x29
    ldp x29, x30, [sp], #16
    ret
#elif defined(__riscv)
    .globl _start
_start:
    mv a0, sp
    andi sp, sp, -16
    call start
    .globl system_call
system_call:
    mv a7, a0
    mv a0, a1
    mv a1, a2
    mv a2, a3
    ecall
    ret
    .globl call_on
call_on:
    addi sp, sp, -16
    sw ra, 12(sp)
    sw s0, 8(sp)
    mv s0, sp
    mv sp, a1
    jalr a0
    mv sp, s0
    lw s0, 8(sp)
    lw ra, 12(sp)
    addi sp, sp, 16
    ret
#elif defined(__thumb2__)
    .syntax unified
    .thumb
    .globl _start
    .thumb_func
_start:
    mov r0, sp
    bl start
    .globl system_call
    .thumb_func
system_call:
    push {r7, lr}
    mov r7, r0
    mov r0, r1
    mov r1, r2
    mov r2, r3
    svc #0
    pop {r7, pc}
    .globl call_on
    .thumb_func
call_on:
    push {r4, lr}
    mov r4, sp
    mov sp, r1
    blx r0
    mov sp, r4
    pop {r4, pc}
#else
#error "x86-64, AArch64, RISC-V or Thumb-2"
#endif
    .section .note.GNU-stack, "", %progbits
