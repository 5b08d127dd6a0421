QL	1
T	u
T	>
T	q
T	u
T	>
T	b
T	q
M	a	0	0
M	l	0	1
M	s	0	0
M	a	0	2
M	n	0	4
M	0	0	5
E	7	6
