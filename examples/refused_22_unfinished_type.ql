QL	1
T	b
T	>
T	b
M	0	0	0
E	3	1
