QL	1
T	b
M	1	1	0
E	1	1
