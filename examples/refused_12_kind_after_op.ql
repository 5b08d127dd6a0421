QL	1
T	b
M	0	0	0
T	b
E	2	1
