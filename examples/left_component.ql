QL	1
T	b
T	*
T	b
T	b
M	d	0	0
M	p	0	1
M	1	0	0
M	0	0	0
M	v	1	0
E	4	5
