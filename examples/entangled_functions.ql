QL	1
T	*
T	>
T	q
T	*
T	b
T	b
T	>
T	*
T	b
T	b
T	q
T	*
T	q
T	q
T	>
T	u
T	*
T	q
T	q
T	>
T	*
T	q
T	q
T	*
T	q
T	q
T	>
T	q
T	q
T	>
T	b
T	q
T	>
T	>
T	q
T	*
T	b
T	b
T	*
T	>
T	q
T	*
T	b
T	b
T	>
T	*
T	b
T	b
T	q
T	>
T	>
T	*
T	b
T	b
T	q
T	*
T	>
T	q
T	*
T	b
T	b
T	>
T	*
T	b
T	b
T	q
T	>
T	q
T	>
T	*
T	b
T	b
T	q
T	>
T	q
T	>
T	q
T	*
T	b
T	b
T	>
T	q
T	b
M	d	0	0
M	a	0	11
M	l	0	14
M	a	0	11
M	g	5	19
M	p	0	11
M	a	0	2
M	g	0	26
M	a	0	2
M	n	0	29
M	0	0	4
M	a	0	2
M	n	0	29
M	0	0	4
M	s	0	15
M	a	0	0
M	l	0	32
M	a	0	0
M	l	0	49
M	p	0	0
M	v	1	1
M	v	0	6
M	a	0	6
M	l	0	66
M	l	0	6
M	d	0	2
M	v	0	3
M	i	0	2
M	v	1	4
M	i	0	2
M	v	0	4
M	a	0	2
M	g	2	26
M	a	0	2
M	g	1	26
M	v	3	2
M	a	0	2
M	g	2	26
M	v	3	2
M	i	0	2
M	v	0	4
M	a	0	2
M	g	1	26
M	v	3	2
M	v	3	2
M	v	1	2
M	a	0	1
M	l	0	73
M	l	0	1
M	d	0	3
M	a	0	11
M	g	5	19
M	p	0	11
M	v	0	2
M	v	1	2
M	p	0	3
M	a	0	4
M	m	0	80
M	a	0	2
M	g	0	26
M	v	1	2
M	a	0	4
M	m	0	80
M	v	0	2
M	v	1	2
E	83	65
