QL	1
T	b
T	>
T	q
T	b
T	>
T	q
T	q
T	>
T	!
T	>
T	q
T	q
T	>
T	q
T	q
T	>
T	b
T	q
M	a	0	0
M	m	0	1
M	a	0	2
M	a	0	4
M	l	0	7
M	l	0	4
M	a	0	2
M	v	1	4
M	a	0	2
M	v	1	4
M	v	0	2
M	g	0	8
M	a	0	2
M	n	0	15
M	1	0	0
E	18	15
