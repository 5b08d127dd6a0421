QL	1
T	!
T	*
T	b
T	b
T	!
T	b
M	p	0	0
M	1	0	4
M	0	0	4
E	6	3
