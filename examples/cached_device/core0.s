# Waits until the UART has room, and sends a letter.
.text 0
    movia r8, 0x20000
    movi r3, 79
wait:
    ldw r2, 4(r8)
    srli r2, r2, 16
    beq r2, r0, wait
    stwio r3, 0(r8)
    break
