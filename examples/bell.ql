QL	1
T	*
T	b
T	b
T	*
T	q
T	q
T	>
T	*
T	q
T	q
T	*
T	q
T	q
T	>
T	q
T	q
T	>
T	b
T	q
T	>
T	q
T	b
M	d	0	0
M	a	0	3
M	g	5	6
M	p	0	3
M	a	0	4
M	g	0	13
M	a	0	4
M	n	0	16
M	0	0	1
M	a	0	4
M	n	0	16
M	0	0	1
M	p	0	0
M	a	0	1
M	m	0	19
M	v	1	4
M	a	0	1
M	m	0	19
M	v	0	4
E	22	19
