QL	1
T	>
T	q
T	q
T	b
T	>
T	q
T	b
T	>
T	b
T	q
M	l	0	0
M	i	0	1
M	a	0	3
M	m	0	4
M	v	0	1
M	v	0	1
M	a	0	1
M	n	0	7
M	0	0	3
E	10	9
