QL	1
T	b
T	>
T	>
T	*
T	q
T	q
T	*
T	q
T	q
T	b
T	>
T	q
T	q
T	>
T	b
T	q
T	>
T	q
T	b
M	a	0	0
M	l	0	1
M	d	0	0
M	a	0	3
M	v	0	2
M	p	0	3
M	a	0	4
M	g	0	10
M	a	0	4
M	n	0	13
M	0	0	0
M	a	0	4
M	g	0	10
M	a	0	4
M	g	1	10
M	a	0	4
M	n	0	13
M	0	0	0
M	a	0	0
M	m	0	16
M	a	0	4
M	g	0	10
M	v	1	4
M	l	0	2
M	a	0	3
M	l	0	2
M	d	0	3
M	v	0	3
M	d	0	3
M	a	0	3
M	g	5	2
M	p	0	3
M	a	0	4
M	g	1	10
M	v	1	4
M	v	0	4
M	p	0	3
M	a	0	4
M	g	1	10
M	v	1	4
M	v	0	4
M	a	0	3
M	g	5	2
M	v	0	3
E	19	44
