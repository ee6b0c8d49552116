# DriverEntry of a driver that sleeps for 50 microseconds and then returns STATUS_SUCCESS
start:
    push 50
    call @NdisMSleep
    xor eax, eax
    ret 8
