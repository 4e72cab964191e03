.text 0
addi r2, r0, 5
break
