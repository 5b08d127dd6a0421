QL	1
T	b
T	>
T	b
T	b
T	!
T	>
T	b
T	b
T	>
T	!
T	>
T	b
T	b
T	b
M	a	0	0
M	l	0	1
M	a	0	0
M	l	0	8
M	a	0	0
M	v	0	1
M	a	0	0
M	v	0	1
M	v	1	0
M	l	0	4
M	a	0	0
M	l	0	8
M	a	0	0
M	v	0	1
M	a	0	0
M	v	0	1
M	v	1	0
M	l	0	4
M	a	0	0
M	l	0	8
M	a	0	0
M	v	0	1
M	a	0	0
M	v	0	1
M	v	1	0
M	l	0	4
M	a	0	0
M	l	0	8
M	a	0	0
M	v	0	1
M	a	0	0
M	v	0	1
M	v	1	0
M	l	0	4
M	a	0	0
M	l	0	8
M	a	0	0
M	v	0	1
M	a	0	0
M	v	0	1
M	v	1	0
M	l	0	4
M	a	0	0
M	l	0	8
M	a	0	0
M	v	0	1
M	a	0	0
M	v	0	1
M	v	1	0
M	l	0	4
M	a	0	0
M	l	0	8
M	a	0	0
M	v	0	1
M	a	0	0
M	v	0	1
M	v	1	0
M	l	0	4
M	a	0	0
M	l	0	8
M	a	0	0
M	v	0	1
M	a	0	0
M	v	0	1
M	v	1	0
M	l	0	4
M	i	0	0
M	v	0	0
M	0	0	0
M	1	0	0
M	0	0	0
E	14	71
