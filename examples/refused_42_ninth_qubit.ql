QL	1
T	*
T	q
T	*
T	q
T	*
T	q
T	*
T	q
T	*
T	q
T	*
T	q
T	*
T	q
T	*
T	q
T	q
T	>
T	b
T	q
M	p	0	0
M	a	0	1
M	n	0	17
M	0	0	18
M	p	0	2
M	a	0	1
M	n	0	17
M	0	0	18
M	p	0	4
M	a	0	1
M	n	0	17
M	0	0	18
M	p	0	6
M	a	0	1
M	n	0	17
M	0	0	18
M	p	0	8
M	a	0	1
M	n	0	17
M	0	0	18
M	p	0	10
M	a	0	1
M	n	0	17
M	0	0	18
M	p	0	12
M	a	0	1
M	n	0	17
M	0	0	18
M	p	0	14
M	a	0	1
M	n	0	17
M	0	0	18
M	a	0	1
M	n	0	17
M	1	0	18
E	20	35
