# The survival numbers as they were computed before change 2026-03, in the machine code that the
# kit's compiler made of them then. Kept to be timed beside the code of now (bench/temperatures), and
# used by nothing else.
#
#     uint64_t rothc_survival_before(uint64_t n, uint64_t pool);
#
# is rothc_survival, which makes the four numbers of a month by survival_before and returns one.
# w = i/64 + r: six terms for e^(-r), and for i above 0 a product of two entries of constant arrays,
# of 15 and of 32 numbers, which are laid out on the stack here, one by one, in each call.
        .text

        .p2align 4
        .type   survival_before, @function
survival_before:
        movabs  $0xee6b280000,%r9
        movabs  $0x4000000000,%r8
        imul    %rsi,%rdi
        mov     %rdi,%rax
        shr     $0x7,%rax
        movabs  $0xea8ffeba6430e3ff,%rcx
        cmp     $0x8bb2c97,%rax
        jb      1f
        sub     $0xf8,%rsp
        movabs  $0x45d964b80,%r10
        mov     %rdi,%rax
        mul     %rcx
        shr     $0x22,%rdx
        mov     %r9,-0x80(%rsp)
        movabs  $0x909bb18eda,%rax
        mov     %rax,-0x78(%rsp)
        movabs  $0x57b59444b0,%rax
        mov     %rax,-0x70(%rsp)
        movabs  $0x350ed02581,%rsi
        lea     0x23f89b17(%rsi),%rax
        mov     %rax,-0x68(%rsp)
        movabs  $0x204435ccf2,%rax
        mov     %rax,-0x60(%rsp)
        movabs  $0x1392121a7f,%rax
        mov     %rax,-0x58(%rsp)
        movabs  $0xbdec2f179,%rax
        mov     %rax,-0x50(%rsp)
        movabs  $0x7331a1db0,%rax
        mov     %rax,-0x48(%rsp)
        add     $0x4f900e,%r10
        mov     %r10,-0x40(%rsp)
        movabs  $0x2a60a1227,%rax
        mov     %rax,-0x38(%rsp)
        movabs  $0x19b406bff,%rax
        mov     %rax,-0x30(%rsp)
        mov     $0x974a80b5,%eax
        lea     0x62254d0c(%rax),%r9
        mov     %r9,-0x28(%rsp)
        mov     %rax,-0x20(%rsp)
        movq    $0x5bc33cc6,-0x18(%rsp)
        movq    $0x37a827dd,-0x10(%rsp)
        mov     %edx,%eax
        shr     $0x2,%eax
        and     $0x3ffff8,%eax
        mov     -0x80(%rsp,%rax,1),%rax
        mov     %r8,-0x8(%rsp)
        movabs  $0x3f01fd57fe,%r9
        mov     %r9,(%rsp)
        movabs  $0x3e07ead511,%r9
        mov     %r9,0x8(%rsp)
        movabs  $0x3d11b8d5fe,%r9
        mov     %r9,0x10(%rsp)
        movabs  $0x3c1f57f78e,%r9
        mov     %r9,0x18(%rsp)
        movabs  $0x3b30b913a1,%r9
        mov     %r9,0x20(%rsp)
        movabs  $0x3a45cd4033,%r9
        mov     %r9,0x28(%rsp)
        movabs  $0x395e85ce75,%r9
        mov     %r9,0x30(%rsp)
        movabs  $0x387ad449db,%r9
        mov     %r9,0x38(%rsp)
        movabs  $0x379aaa773b,%r9
        mov     %r9,0x40(%rsp)
        movabs  $0x36bdfa53e5,%r9
        mov     %r9,0x48(%rsp)
        movabs  $0x35e4b614c3,%r9
        mov     %r9,0x50(%rsp)
        mov     %rsi,0x58(%rsp)
        movabs  $0x343c3b27ad,%rsi
        mov     %rsi,0x60(%rsp)
        movabs  $0x336ce9f1e6,%rsi
        mov     %rsi,0x68(%rsp)
        movabs  $0x32a0cf8f07,%rsi
        mov     %rsi,0x70(%rsp)
        movabs  $0x31d7df3d59,%rsi
        mov     %rsi,0x78(%rsp)
        movabs  $0x31120c6dc6,%rsi
        mov     %rsi,0x80(%rsp)
        movabs  $0x304f4ac311,%rsi
        mov     %rsi,0x88(%rsp)
        movabs  $0x2f8f8e110f,%rsi
        mov     %rsi,0x90(%rsp)
        movabs  $0x2ed2ca5be4,%rsi
        mov     %rsi,0x98(%rsp)
        movabs  $0x2e18f3d746,%rsi
        mov     %rsi,0xa0(%rsp)
        movabs  $0x2d61fee5bd,%rsi
        mov     %rsi,0xa8(%rsp)
        movabs  $0x2cade017eb,%rsi
        mov     %rsi,0xb0(%rsp)
        movabs  $0x2bfc8c2bd3,%rsi
        mov     %rsi,0xb8(%rsp)
        movabs  $0x2b4df80c28,%rsi
        mov     %rsi,0xc0(%rsp)
        movabs  $0x2aa218cf9a,%rsi
        mov     %rsi,0xc8(%rsp)
        movabs  $0x29f8e3b827,%rsi
        mov     %rsi,0xd0(%rsp)
        movabs  $0x29524e326e,%rsi
        mov     %rsi,0xd8(%rsp)
        movabs  $0x28ae4dd50a,%rsi
        mov     %rsi,0xe0(%rsp)
        movabs  $0x280cd85fe7,%rsi
        mov     %rsi,0xe8(%rsp)
        movabs  $0x276de3bba1,%rsi
        mov     %rsi,0xf0(%rsp)
        and     $0x1f,%edx
        mov     -0x8(%rsp,%rdx,8),%r9
        mov     %r9,%rdx
        shr     $0x13,%rdx
        and     $0x7ffff,%r9d
        imul    %rax,%rdx
        imul    %rax,%r9
        shr     $0x13,%r9
        add     %rdx,%r9
        shr     $0x13,%r9
        add     $0xf8,%rsp
1:
        shl     $0x6,%rdi
        mov     %rdi,%rax
        mul     %rcx
        shr     $0x28,%rdx
        movabs  $0x1176592e000,%rax
        imul    %rdx,%rax
        sub     %rax,%rdi
        shl     $0x13,%rdi
        movabs  $0x3aa3ffae990c39,%rcx
        mov     %rdi,%rax
        mul     %rcx
        mov     %rdx,%rsi
        shr     $0x11,%rsi
        mov     %rsi,%rcx
        imul    %rsi,%rcx
        shr     $0x27,%rcx
        mov     %rcx,%rax
        imul    %rsi,%rax
        movabs  $0x2aaaaaaaaaaaaab,%rdx
        mul     %rdx
        mov     %rdx,%rdi
        shr     $0x21,%rdi
        mov     %rdi,%rax
        imul    %rsi,%rax
        shr     $0x28,%rax
        or      %r8,%rcx
        add     %rax,%rcx
        imul    %rsi,%rax
        movabs  $0xcccccccccccd,%rdx
        mul     %rdx
        shr     $0x18,%rdx
        add     %rsi,%rdi
        add     %rdx,%rdi
        sub     %rdi,%rcx
        mov     %rcx,%rax
        shr     $0x13,%rax
        and     $0x7ffff,%ecx
        imul    %r9,%rax
        imul    %r9,%rcx
        shr     $0x13,%rcx
        add     %rax,%rcx
        shr     $0x13,%rcx
        add     $0x200,%rcx
        shr     $0xa,%rcx
        mov     %rcx,%rax
        ret
        .size   survival_before, .-survival_before

        .p2align 4
        .globl  rothc_survival_before
        .type   rothc_survival_before, @function
rothc_survival_before:
        cmp     $0x4,%rsi
        setae   %al
        movabs  $0x1f286fc60,%rcx
        cmp     %rcx,%rdi
        seta    %cl
        or      %al,%cl
        mov     $0xffffffffffffffff,%rax
        jne     1f
        push    %r15
        push    %r14
        push    %r13
        push    %r12
        push    %rbx
        sub     $0x20,%rsp
        mov     %rsi,%rbx
        mov     $0x3e8,%esi
        mov     %rdi,%r14
        call    survival_before
        mov     %rax,%r15
        mov     $0x1e,%esi
        mov     %r14,%rdi
        call    survival_before
        mov     %rax,%r12
        mov     $0x42,%esi
        mov     %r14,%rdi
        call    survival_before
        mov     %rax,%r13
        mov     $0x2,%esi
        mov     %r14,%rdi
        call    survival_before
        mov     %r15,(%rsp)
        mov     %r12,0x8(%rsp)
        mov     %r13,0x10(%rsp)
        mov     %rax,0x18(%rsp)
        mov     (%rsp,%rbx,8),%rax
        add     $0x20,%rsp
        pop     %rbx
        pop     %r12
        pop     %r13
        pop     %r14
        pop     %r15
1:
        ret
        .size   rothc_survival_before, .-rothc_survival_before

        .section .note.GNU-stack, "", @progbits
