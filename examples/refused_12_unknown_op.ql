QL	1
T	b
M	x	0	0
E	1	1
