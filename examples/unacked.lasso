stem	arm	0	recording
loop	chunk	0	recording
