QL	1
T	*
T	q
T	q
T	>
T	q
T	q
T	>
T	b
T	q
M	p	0	0
M	a	0	1
M	g	0	3
M	a	0	1
M	n	0	6
M	1	0	7
M	a	0	1
M	g	1	3
M	a	0	1
M	n	0	6
M	0	0	7
E	9	11
