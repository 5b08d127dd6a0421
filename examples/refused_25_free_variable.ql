QL	1
T	>
T	q
T	q
M	l	0	0
M	v	1	1
E	3	2
