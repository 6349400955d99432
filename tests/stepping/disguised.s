# The step in the form that machine_code.py accepts, and with one thing changed each, so that a value number tells whether
# the loop is gone over or where the return leads. They are looked at, and never called.
        .intel_syntax noprefix

# On entry the stack has the return address, the request's truth values from 8, its numbers from 0x10, its length at 0x40
# and the counts from 0x48: 0x10 more once the stack has moved.
        .macro step name, first="", last="", back=0x10
        .globl \name
        .type \name, @function
\name:
        sub rsp, 0x10
        lea rsi, [rsp+0x8]
        \first
        mov rcx, QWORD PTR [rsp+0x50]
        test rcx, rcx
        je 2f
        mov eax, 0x1
        mov r8, rcx
1:
        add eax, DWORD PTR [rsp+r8*8+0x18]
        xor edx, edx
        div DWORD PTR [rsp+r8*8+0x50]
        mov QWORD PTR [rsp+r8*8+0x18], rdx
        dec r8
        jne 1b
2:
        mov rax, QWORD PTR [rsp+0x20]
        mov QWORD PTR [rdi+0x8], rax
        \last
        add rsp, \back
        ret
        .size \name, . - \name
        .endm

# The same where the divisor is tested against 0 before the division, and the truth values are packed behind the loop.
        .macro tested name, divided=0x40, packed=0x8
        .globl \name
        .type \name, @function
\name:
        mov esi, DWORD PTR [rsp+\packed]
        mov r9d, DWORD PTR [rsp+0xc]
        mov rcx, QWORD PTR [rsp+0x40]
        test rcx, rcx
        je 2f
        mov eax, 0x1
        mov r8, rcx
1:
        mov r10d, DWORD PTR [rsp+r8*8+\divided]
        test r10d, r10d
        je 3f
        dec r8
        add eax, DWORD PTR [rsp+r8*8+0x10]
        xor edx, edx
        div r10d
        mov QWORD PTR [rsp+r8*8+0x10], rdx
        test r8, r8
        jne 1b
2:
        shl r9, 0x20
        or r9, rsi
        movabs rax, 0xffffffffffff
        and rax, r9
        mov QWORD PTR [rdi], rax
        ret
3:
        ud2
        .size \name, . - \name
        .endm

        .text
        step undisguised
        step value_as_length, first="mov rax, QWORD PTR [rsp+0x20]; mov QWORD PTR [rsp+0x50], rax"
        step value_as_return, last="mov QWORD PTR [rsp+0x10], rax"
        step value_as_return_by_base, last="mov QWORD PTR [rsi+0x8], rax"
        step return_to_value, back=0x20
        tested undisguised_tested
        tested value_as_divisor, divided=0x8
        tested value_packed, packed=0x10

        .section .note.GNU-stack, "", @progbits
