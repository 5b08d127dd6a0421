QL	1
T	b
T	>
T	q
T	b
M	a	0	0
M	m	0	1
M	q	0	2
E	4	3
