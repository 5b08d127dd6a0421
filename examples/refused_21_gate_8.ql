QL	1
T	q
T	>
T	q
T	q
T	>
T	b
T	q
M	a	0	0
M	g	8	1
M	a	0	0
M	n	0	4
M	0	0	5
E	7	5
