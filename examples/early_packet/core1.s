# Reads the packet without waiting for the message.
.text 0x1000
    movia r9, 0x9000
    ldw r4, 0(r9)
    break
