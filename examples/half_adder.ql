QL	1
T	*
T	b
T	b
T	*
T	q
T	*
T	q
T	q
T	>
T	*
T	q
T	*
T	q
T	q
T	*
T	q
T	*
T	q
T	q
T	>
T	b
T	q
T	>
T	*
T	q
T	q
T	*
T	q
T	q
T	>
T	q
T	b
M	d	0	0
M	a	0	3
M	g	7	8
M	p	0	3
M	a	0	4
M	n	0	19
M	1	0	1
M	p	0	5
M	a	0	4
M	n	0	19
M	0	0	1
M	a	0	4
M	n	0	19
M	0	0	1
M	d	0	0
M	v	0	5
M	d	0	0
M	a	0	5
M	g	5	22
M	p	0	5
M	v	3	4
M	v	1	4
M	p	0	0
M	a	0	1
M	m	0	29
M	v	0	4
M	a	0	1
M	m	0	29
M	v	2	4
E	32	29
