# Adds 1 to a shared word, and takes no mutex.
.text 0
    movia r9, 0x8000
    ldw r14, 0(r9)
    addi r14, r14, 1
    stw r14, 0(r9)
    break
