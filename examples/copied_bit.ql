QL	1
T	*
T	b
T	b
T	>
T	!
T	b
T	*
T	b
T	b
T	>
T	q
T	!
T	b
T	>
T	q
T	q
T	>
T	b
T	q
M	a	0	0
M	l	0	3
M	p	0	0
M	v	0	1
M	v	0	1
M	a	0	4
M	m	0	9
M	a	0	10
M	g	0	13
M	a	0	10
M	n	0	16
M	0	0	1
E	19	12
