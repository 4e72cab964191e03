# Sends "hi" to the UART at 0x10000.
.text 0
    orhi r8, r0, 1
    movi r2, 104
    stwio r2, 0(r8)
    movi r2, 105
    stwio r2, 0(r8)
    break
