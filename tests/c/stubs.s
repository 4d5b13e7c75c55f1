# The library's functions without a body, so that tests/c/stack.c measures what the header's wrappers take by themselves. Each answers 0 or a
# size of 1; what does not fit two registers stands where the caller has room for it.
    .text
    .globl auttervil_raw3_version, auttervil_raw3_numbers_size, auttervil_raw3_names_size, auttervil_raw3_compile, auttervil_raw3_check
    .globl auttervil_raw3_room, auttervil_raw3_fingerprint, auttervil_raw3_read, auttervil_raw3_read_with, auttervil_raw3_write
    .globl auttervil_raw3_start, auttervil_raw3_post, auttervil_raw3_run, auttervil_raw3_advance, auttervil_raw3_step, auttervil_raw3_perform
auttervil_raw3_version:
    movl $3, %eax
    ret
auttervil_raw3_numbers_size:
auttervil_raw3_names_size:
    movl $1, %eax
    ret
auttervil_raw3_compile:
auttervil_raw3_write:
auttervil_raw3_check:
auttervil_raw3_room:
auttervil_raw3_fingerprint:
auttervil_raw3_start:
auttervil_raw3_post:
auttervil_raw3_run:
auttervil_raw3_advance:
auttervil_raw3_perform:
    xorl %eax, %eax
    xorl %edx, %edx
    ret
auttervil_raw3_read:
auttervil_raw3_read_with:
    movq $0, 24(%rdi)
auttervil_raw3_step:
    movq %rdi, %rax
    movq $0, (%rdi)
    movq $0, 8(%rdi)
    movq $0, 16(%rdi)
    ret
    .section .note.GNU-stack, "", @progbits
