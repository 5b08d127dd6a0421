QL	1
T	q
T	!
T	>
T	q
T	q
T	>
T	b
T	q
M	a	0	0
M	g	0	1
M	a	0	0
M	n	0	5
M	0	0	6
E	8	5
