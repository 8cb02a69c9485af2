# memset and memcpy for the library alone. The compiler's back end calls them: it fills each large array with zeros where its function begins, and
# copies one that a function returns. With these the library needs no other; `make lib` joins them to it and hides their names.
# No theorem speaks of them: they are part of what the compiler makes of the source. tests/memory tries them.
        .text

        # void *memset(void *to, int byte, size_t n)
        .globl  memset
        .type   memset, @function
memset:
        movq    %rdi, %r8
        movl    %esi, %eax
        movq    %rdx, %rcx
        rep stosb
        movq    %r8, %rax
        ret
        .size   memset, . - memset

        # void *memcpy(void *to, const void *from, size_t n)
        .globl  memcpy
        .type   memcpy, @function
memcpy:
        movq    %rdi, %rax
        movq    %rdx, %rcx
        rep movsb
        ret
        .size   memcpy, . - memcpy

        .section .note.GNU-stack, "", @progbits
