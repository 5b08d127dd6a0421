QL	1
T	>
T	b
T	>
T	b
T	>
T	b
T	>
T	b
T	>
T	b
T	>
T	b
T	>
T	b
T	>
T	b
T	>
T	b
T	>
T	b
T	>
T	b
T	>
T	b
T	>
T	b
T	>
T	b
T	>
T	b
T	>
T	b
T	>
T	b
T	>
T	b
T	>
T	b
T	>
T	b
T	>
T	b
T	>
T	b
T	>
T	b
T	>
T	b
T	>
T	b
T	>
T	b
T	>
T	b
T	>
T	b
T	>
T	b
T	>
T	b
T	>
T	b
T	>
T	b
T	b
M	l	0	0
M	l	0	2
M	l	0	4
M	l	0	6
M	l	0	8
M	l	0	10
M	l	0	12
M	l	0	14
M	l	0	16
M	l	0	18
M	l	0	20
M	l	0	22
M	l	0	24
M	l	0	26
M	l	0	28
M	l	0	30
M	l	0	32
M	l	0	34
M	l	0	36
M	l	0	38
M	l	0	40
M	l	0	42
M	l	0	44
M	l	0	46
M	l	0	48
M	l	0	50
M	l	0	52
M	l	0	54
M	l	0	56
M	l	0	58
M	l	0	60
M	l	0	62
M	v	31	1
E	65	33
