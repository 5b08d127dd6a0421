QL	1
T	b
T	*
T	>
T	q
T	*
T	b
T	b
T	>
T	*
T	b
T	b
T	q
T	*
T	q
T	q
T	>
T	u
T	*
T	q
T	q
T	>
T	*
T	q
T	q
T	*
T	q
T	q
T	>
T	q
T	q
T	>
T	b
T	q
T	>
T	>
T	q
T	*
T	b
T	b
T	*
T	>
T	q
T	*
T	b
T	b
T	>
T	*
T	b
T	b
T	q
T	>
T	>
T	*
T	b
T	b
T	q
T	*
T	>
T	q
T	*
T	b
T	b
T	>
T	*
T	b
T	b
T	q
T	>
T	q
T	>
T	*
T	b
T	b
T	q
T	>
T	q
T	>
T	q
T	*
T	b
T	b
T	>
T	q
T	b
M	d	0	0
M	d	0	1
M	a	0	12
M	l	0	15
M	a	0	12
M	g	5	20
M	p	0	12
M	a	0	3
M	g	0	27
M	a	0	3
M	n	0	30
M	0	0	0
M	a	0	3
M	n	0	30
M	0	0	0
M	s	0	16
M	a	0	1
M	l	0	33
M	a	0	1
M	l	0	50
M	p	0	1
M	v	1	2
M	v	0	7
M	a	0	7
M	l	0	67
M	l	0	7
M	d	0	3
M	v	0	4
M	i	0	3
M	v	1	0
M	i	0	3
M	v	0	0
M	a	0	3
M	g	2	27
M	a	0	3
M	g	1	27
M	v	3	3
M	a	0	3
M	g	2	27
M	v	3	3
M	i	0	3
M	v	0	0
M	a	0	3
M	g	1	27
M	v	3	3
M	v	3	3
M	v	1	3
M	a	0	2
M	l	0	74
M	l	0	2
M	d	0	4
M	a	0	12
M	g	5	20
M	p	0	12
M	v	0	3
M	v	1	3
M	p	0	4
M	a	0	0
M	m	0	81
M	a	0	3
M	g	0	27
M	v	1	3
M	a	0	0
M	m	0	81
M	v	0	3
M	v	1	3
M	a	0	0
M	m	0	81
M	a	0	3
M	v	0	7
M	a	0	4
M	v	1	2
M	a	0	3
M	g	1	27
M	a	0	3
M	n	0	30
M	0	0	0
E	84	77
