# Writes a packet, flushes it, and posts its address.
.text 0
    movia r8, 0x20040
    movia r9, 0x9000
    movi r2, 42
    stw r2, 0(r9)
    flushda 0(r9)
    movi r3, 7
    stwio r9, 4(r8)
    stwio r3, 0(r8)
    break
