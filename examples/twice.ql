QL	1
T	b
T	>
T	!
T	>
T	q
T	q
T	b
T	>
T	q
T	b
T	>
T	b
T	q
M	a	0	0
M	l	0	1
M	a	0	0
M	m	0	7
M	a	0	4
M	v	0	3
M	a	0	4
M	v	0	3
M	a	0	4
M	n	0	10
M	1	0	0
M	l	0	2
M	a	0	4
M	g	0	3
M	v	0	4
E	13	15
