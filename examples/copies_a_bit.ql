QL	1
T	>
T	!
T	b
T	*
T	b
T	b
M	l	0	0
M	p	0	3
M	v	0	2
M	v	0	2
E	6	4
