# Reads a shared word under the mutex, gives the mutex back, takes it again and reads the word again.
.text 0
    movia r8, 0x20000
    movia r9, 0x8000
    movi r11, 1
    stwio r11, 0(r8)
    ldw r14, 0(r9)
    stwio r0, 0(r8)
    stwio r11, 0(r8)
    initda 0(r9)
    ldw r15, 0(r9)
    stwio r0, 0(r8)
    break
