QL	1
T	*
T	b
T	b
T	*
T	q
T	q
T	>
T	u
T	*
T	q
T	q
T	>
T	*
T	q
T	q
T	*
T	q
T	q
T	>
T	q
T	q
T	>
T	b
T	q
T	>
T	q
T	*
T	b
T	b
T	>
T	q
T	>
T	q
T	*
T	b
T	b
T	>
T	q
T	b
T	>
T	*
T	b
T	b
T	q
T	>
T	q
T	>
T	*
T	b
T	b
T	q
M	d	0	0
M	a	0	3
M	l	0	6
M	a	0	3
M	g	5	11
M	p	0	3
M	a	0	4
M	g	0	18
M	a	0	4
M	n	0	21
M	0	0	1
M	a	0	4
M	n	0	21
M	0	0	1
M	s	0	7
M	a	0	0
M	a	0	24
M	l	0	29
M	l	0	24
M	d	0	0
M	a	0	3
M	g	5	11
M	p	0	3
M	v	0	4
M	v	1	4
M	p	0	0
M	a	0	1
M	m	0	36
M	a	0	4
M	g	0	18
M	v	1	4
M	a	0	1
M	m	0	36
M	v	0	4
M	v	0	4
M	a	0	4
M	a	0	39
M	l	0	44
M	l	0	39
M	d	0	4
M	v	0	0
M	i	0	4
M	v	1	1
M	i	0	4
M	v	0	1
M	a	0	4
M	g	2	18
M	a	0	4
M	g	1	18
M	v	3	4
M	a	0	4
M	g	2	18
M	v	3	4
M	i	0	4
M	v	0	1
M	a	0	4
M	g	1	18
M	v	3	4
M	v	3	4
M	v	1	4
M	p	0	0
M	1	0	1
M	0	0	1
E	51	63
