QL	1
T	b
T	>
T	!
T	b
T	b
T	>
T	b
T	b
T	>
T	b
T	>
T	b
T	b
T	>
T	q
T	!
T	b
T	>
T	q
T	q
T	>
T	b
T	q
M	a	0	0
M	l	0	1
M	a	0	0
M	a	0	5
M	l	0	8
M	l	0	5
M	i	0	0
M	v	1	0
M	i	0	0
M	v	0	0
M	0	0	0
M	1	0	0
M	i	0	0
M	v	0	0
M	1	0	0
M	0	0	0
M	v	0	0
M	v	0	0
M	a	0	2
M	m	0	13
M	a	0	14
M	g	0	17
M	a	0	14
M	n	0	20
M	0	0	0
E	23	25
