QL	1
T	b
E	1	0
