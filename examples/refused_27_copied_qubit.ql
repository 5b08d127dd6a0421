QL	1
T	>
T	q
T	*
T	q
T	q
M	l	0	0
M	p	0	2
M	v	0	1
M	v	0	1
E	5	4
