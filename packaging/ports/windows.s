# What a DLL of Windows has beside the library's own code.

# Called where a frame is larger than a page: it touches each page of the stack, as Windows asks (RAX holds the size), and
# changes no register.
        .globl ___chkstk_ms
        .section .text,"xr"
        .p2align 4
___chkstk_ms:
        pushq %rcx
        pushq %rax
        cmpq $0x1000, %rax
        leaq 24(%rsp), %rcx
        jb 1f
2:      subq $0x1000, %rcx
        testq %rcx, (%rcx)
        subq $0x1000, %rax
        cmpq $0x1000, %rax
        ja 2b
1:      subq %rax, %rcx
        testq %rcx, (%rcx)
        popq %rax
        popq %rcx
        ret
