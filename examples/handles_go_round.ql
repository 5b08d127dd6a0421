QL	1
T	*
T	b
T	b
T	>
T	!
T	>
T	u
T	b
T	*
T	b
T	b
T	>
T	b
T	*
T	b
T	b
T	>
T	q
T	b
T	>
T	q
T	q
T	>
T	b
T	q
M	a	0	0
M	l	0	3
M	a	0	0
M	l	0	11
M	a	0	0
M	l	0	11
M	a	0	0
M	l	0	11
M	a	0	0
M	l	0	11
M	a	0	0
M	l	0	11
M	a	0	0
M	l	0	11
M	a	0	0
M	l	0	11
M	a	0	0
M	l	0	11
M	p	0	0
M	v	7	1
M	a	0	1
M	v	8	5
M	s	0	6
M	a	0	1
M	v	7	5
M	s	0	6
M	a	0	1
M	v	6	5
M	s	0	6
M	a	0	1
M	v	5	5
M	s	0	6
M	a	0	1
M	v	4	5
M	s	0	6
M	a	0	1
M	v	3	5
M	s	0	6
M	a	0	1
M	v	2	5
M	s	0	6
M	a	0	1
M	v	1	5
M	s	0	6
M	a	0	1
M	v	0	5
M	s	0	6
M	l	0	4
M	a	0	1
M	m	0	16
M	a	0	17
M	g	0	19
M	a	0	17
M	n	0	22
M	0	0	1
E	25	55
