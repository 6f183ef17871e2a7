# What the counter of instructions is tried on: a string instruction with a repeat prefix is one instruction, whether it
# repeats 4,096 times, a few times, once or not at all. This program executes 31 instructions; measure.py holds the
# counter to that.
    .globl _start
    .text
_start:
    xor %eax, %eax
    lea there(%rip), %rdi
    mov $4096, %ecx
    rep stosb
    mov $3, %edx
again:
    lea here(%rip), %rsi
    lea there(%rip), %rdi
    mov $7, %ecx
    rep movsb
    dec %edx
    jnz again
    rep movsb
    inc %ecx
    rep stosb
    mov $8, %ecx
    repe scasb
    mov $60, %eax
    xor %edi, %edi
    syscall

    .data
here:
    .ascii "seven.."

    .bss
there:
    .skip 4096
