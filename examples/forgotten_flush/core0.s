# Each core adds 1 to a shared counter a hundred times, under the mutex at 0x20000.
.text 0
    movia r8, 0x20000
    movia r9, 0x8000
    rdctl r10, ctl5
    slli r10, r10, 16
    ori r11, r10, 1
    movi r12, 100
lock:
    stwio r11, 0(r8)
    ldwio r13, 0(r8)
    bne r13, r11, lock
    initda 0(r9)
    ldw r14, 0(r9)
    addi r14, r14, 1
    stw r14, 0(r9)
    stwio r10, 0(r8)
    subi r12, r12, 1
    bne r12, r0, lock
    break
