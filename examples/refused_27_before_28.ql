QL	1
T	>
T	q
T	!
T	>
T	b
T	*
T	q
T	q
M	l	0	0
M	l	0	2
M	p	0	5
M	v	1	1
M	v	1	1
E	8	5
