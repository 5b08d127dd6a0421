QL	1
T	q
T	>
T	q
T	q
T	b
M	a	0	0
M	g	0	1
M	0	0	4
E	5	3
