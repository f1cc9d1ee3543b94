| What the kernel carries along: the image of the programs, in pages of its own, and the files.
        .globl  user_image, files, files_end

        .section .image, "a"
        .balign 4096
user_image:
        .incbin "user.bin"
        .balign 4096

        .macro  file name, folder
        .pushsection .rodata
1:      .asciz  "\name"
2:      .incbin "\folder\name"
3:      .popsection
        .long   1b, 2b, 3b
        .endm

        .section .rodata.files, "a"
        .balign 4
files:  file    help, files/
        file    welcome, files/
        file    board, files/
        file    space, files/
        file    exceptions, files/
        file    instructions, files/
        file    boot.s
        file    trap.s
        file    memory.s
        file    files.s
        file    board.h
        file    kernel.h
        file    calls.h
        file    main.c
        file    trap.c
        file    access.c
        file    mmu.c
        file    frames.c
        file    process.c
        file    call.c
        file    console.c
        file    files.c
        file    format.c
        file    kernel.ld
        file    Makefile
        file    user/user.h
        file    user/start.s
        file    user/main.c
        file    user/shell.c
        file    user/primes.c
        file    user/clock.c
        file    user/print.c
        file    user/sum.s
        file    user/pieces.s
        file    user/user.ld
files_end:

        .section .note.GNU-stack, ""
