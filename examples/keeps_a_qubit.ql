QL	1
T	>
T	q
T	q
T	b
M	l	0	0
M	i	0	1
M	0	0	3
M	v	0	1
M	v	0	1
E	4	5
