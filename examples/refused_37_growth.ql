QL	1
T	b
T	>
T	b
T	b
T	>
T	!
T	>
T	b
T	b
T	>
T	b
T	b
T	>
T	!
T	>
T	b
T	b
T	!
T	>
T	b
T	b
M	a	0	0
M	a	0	1
M	l	0	4
M	l	0	1
M	a	0	0
M	v	1	1
M	a	0	0
M	v	1	1
M	v	0	0
M	a	0	5
M	l	0	12
M	l	0	5
M	a	0	0
M	v	1	1
M	a	0	0
M	v	1	1
M	v	0	0
M	a	0	5
M	l	0	12
M	l	0	5
M	a	0	0
M	v	1	1
M	a	0	0
M	v	1	1
M	v	0	0
M	a	0	5
M	l	0	12
M	l	0	5
M	a	0	0
M	v	1	1
M	a	0	0
M	v	1	1
M	v	0	0
M	a	0	5
M	l	0	12
M	l	0	5
M	a	0	0
M	v	1	1
M	a	0	0
M	v	1	1
M	v	0	0
M	a	0	5
M	l	0	12
M	l	0	5
M	a	0	0
M	v	1	1
M	a	0	0
M	v	1	1
M	v	0	0
M	a	0	5
M	l	0	12
M	l	0	5
M	a	0	0
M	v	1	1
M	a	0	0
M	v	1	1
M	v	0	0
M	a	0	5
M	l	0	12
M	l	0	5
M	a	0	0
M	v	1	1
M	a	0	0
M	v	1	1
M	v	0	0
M	l	0	5
M	v	0	0
M	0	0	0
E	21	68
