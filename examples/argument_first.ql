QL	1
T	b
T	>
T	q
T	b
T	>
T	q
T	q
T	>
T	b
T	q
M	a	0	0
M	m	0	1
M	a	0	2
M	i	0	4
M	a	0	0
M	m	0	1
M	a	0	2
M	g	0	4
M	a	0	2
M	n	0	7
M	0	0	0
M	g	0	4
M	g	1	4
M	a	0	2
M	n	0	7
M	1	0	0
E	10	16
