QL	1
T	*
T	q
T	*
T	q
T	q
T	>
T	*
T	q
T	q
T	*
T	q
T	q
T	>
T	b
T	q
T	>
T	q
T	q
T	>
T	*
T	q
T	*
T	q
T	q
T	*
T	q
T	*
T	q
T	q
M	d	0	0
M	a	0	2
M	g	6	5
M	p	0	2
M	a	0	1
M	n	0	12
M	0	0	13
M	a	0	1
M	n	0	12
M	1	0	13
M	d	0	0
M	a	0	2
M	g	5	5
M	p	0	2
M	v	1	1
M	a	0	1
M	g	4	15
M	a	0	1
M	g	3	15
M	a	0	1
M	g	2	15
M	a	0	1
M	g	1	15
M	a	0	1
M	g	0	15
M	v	0	1
M	a	0	0
M	g	7	18
M	p	0	0
M	v	1	1
M	p	0	2
M	v	0	1
M	a	0	1
M	n	0	12
M	0	0	13
E	29	35
