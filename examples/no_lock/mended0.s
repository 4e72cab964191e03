# Adds 1 to a shared word under its mutex.
.text 0
    movia r8, 0x20000
    movia r9, 0x8000
    movi r11, 1
lock:
    stwio r11, 0(r8)
    ldwio r13, 0(r8)
    bne r13, r11, lock
    initda 0(r9)
    ldw r14, 0(r9)
    addi r14, r14, 1
    stw r14, 0(r9)
    flushda 0(r9)
    stwio r0, 0(r8)
    break
