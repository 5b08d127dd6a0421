QL	1
T	b
M	0	0	00
E	1	1
