QL	1
T	b
M	1	0	1
E	1	1
