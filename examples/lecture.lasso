loop	arm	0	recording,saved
loop	chunk	0	recording
loop	ack	0	recording
loop	stop	0	recording
