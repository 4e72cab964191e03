# Waits for the message, takes it by reading Command, and then reads the packet.
.text 0x1000
    movia r8, 0x20060
wait:
    ldwio r2, 8(r8)
    andi r2, r2, 1
    beq r2, r0, wait
    ldwio r9, 4(r8)
    ldwio r3, 0(r8)
    ldw r4, 0(r9)
    break
