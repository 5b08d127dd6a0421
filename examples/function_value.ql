QL	1
T	!
T	>
T	q
T	q
T	>
T	!
T	>
T	q
T	q
T	!
T	>
T	q
T	q
M	a	0	0
M	l	0	4
M	l	0	0
M	a	0	2
M	v	1	1
M	a	0	2
M	v	1	1
M	v	0	2
M	g	0	0
E	13	9
