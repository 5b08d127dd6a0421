QL	1
T	q
T	>
T	q
T	q
T	b
T	>
T	q
T	b
T	>
T	b
T	q
M	a	0	0
M	l	0	1
M	i	0	0
M	a	0	4
M	m	0	5
M	a	0	0
M	g	0	1
M	a	0	0
M	n	0	8
M	0	0	4
M	a	0	0
M	g	0	1
M	v	0	0
M	a	0	0
M	g	1	1
M	v	0	0
M	a	0	0
M	n	0	8
M	1	0	4
E	11	19
