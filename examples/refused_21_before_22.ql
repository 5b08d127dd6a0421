QL	1
T	b
T	>
T	b
M	g	8	0
E	3	1
