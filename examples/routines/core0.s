# Adds 1 to a shared counter ten times by the routines of the HAL, and says when it is done.
.equ mutex, 0x20000
.equ uart, 0x10000
.equ counter, 0x8000
.text 0
_start:
    movia r16, counter
    movi r17, 10
again:
    movia r4, mutex
    movi r5, 1
    call altera_avalon_mutex_lock
    mov r4, r16
    movi r5, 4
    call alt_dcache_flush_no_writeback
    ldw r18, 0(r16)
    addi r18, r18, 1
    stw r18, 0(r16)
    mov r4, r16
    movi r5, 4
    call alt_dcache_flush
    movia r4, mutex
    call altera_avalon_mutex_unlock
    subi r17, r17, 1
    bne r17, r0, again
    movia r4, text
    movia r5, uart
    call alt_putstr
    break
text: .asciz "core 0 is done\n"
