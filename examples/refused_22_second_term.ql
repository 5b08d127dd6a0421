QL	1
T	b
M	0	0	0
M	1	0	0
E	1	2
