QL	1
T	*
T	b
T	*
T	b
T	b
T	!
T	*
T	b
T	b
T	!
T	b
M	d	0	0
M	p	0	5
M	1	0	9
M	0	0	9
M	p	0	0
M	v	1	1
M	p	0	2
M	v	0	1
M	v	1	1
E	11	9
