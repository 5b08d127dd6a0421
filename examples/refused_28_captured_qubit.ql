QL	1
T	>
T	q
T	!
T	>
T	b
T	q
M	l	0	0
M	l	0	2
M	v	1	1
E	6	3
