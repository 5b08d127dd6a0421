QL	1
T	b
T	>
T	q
T	b
T	>
T	b
T	q
M	a	0	0
M	l	0	1
M	0	0	0
M	a	0	2
M	n	0	4
M	0	0	0
E	7	6
