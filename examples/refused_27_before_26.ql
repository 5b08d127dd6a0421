QL	1
T	*
T	>
T	q
T	*
T	q
T	q
T	q
T	>
T	q
T	q
T	b
M	p	0	0
M	l	0	1
M	p	0	3
M	v	0	2
M	v	0	2
M	a	0	2
M	g	0	7
M	0	0	10
E	11	8
