# Sends the CRC-32 of "123456789", which is cbf43926 (the check value of the reversed polynomial edb88320).
.equ uart, 0x10000
.text 0x40
_start:
    orhi r8, r0, %hi(uart)
    movui r12, polynomial
    ldw r11, 0(r12)
    ldw r6, 4(r12)
    movi r4, title
    call puts
    movi r9, text
    movi r10, -1
byte:
    ldbu r2, 0(r9)
    beq r2, r0, done
    addi r9, r9, 1
    xor r10, r10, r2
    movi r3, 8
bit:
    andi r4, r10, 1
    srli r10, r10, 1
    beq r4, r0, next
    xor r10, r10, r11
next:
    subi r3, r3, 1
    bne r3, r0, bit
    br byte
done:
    nor r10, r10, r0
    stw r10, 4(r12)
    movi r3, 8
digit:
    roli r10, r10, 4
    andi r4, r10, 15
    ldbu r5, digits(r4)
    stwio r5, 0(r8)
    subi r3, r3, 1
    bne r3, r0, digit
    movi r5, 10
    stwio r5, 0(r8)
    break
# sends the bytes from r4 on, up to a zero
puts:
    ldbu r5, 0(r4)
    beq r5, r0, back
    stwio r5, 0(r8)
    addi r4, r4, 1
    br puts
back:
    ret

.data 0x4000
title: .asciz "crc32 "
.align 8
text: .asciz "123456789"
.align 32
digits: .asciz "0123456789abcdef"

.data 0x8000
polynomial: .word 0xedb88320
sum: .word 0
