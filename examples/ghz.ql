QL	1
T	*
T	b
T	*
T	b
T	b
T	*
T	q
T	q
T	>
T	*
T	q
T	q
T	*
T	q
T	q
T	>
T	q
T	q
T	>
T	b
T	q
T	>
T	q
T	b
M	d	0	0
M	a	0	5
M	g	5	8
M	p	0	5
M	a	0	6
M	g	0	15
M	a	0	6
M	n	0	18
M	0	0	1
M	a	0	6
M	n	0	18
M	0	0	1
M	d	0	0
M	a	0	5
M	g	5	8
M	p	0	5
M	v	0	6
M	a	0	6
M	n	0	18
M	0	0	1
M	p	0	0
M	a	0	1
M	m	0	21
M	v	3	6
M	p	0	2
M	a	0	1
M	m	0	21
M	v	1	6
M	a	0	1
M	m	0	21
M	v	0	6
E	24	31
