NAME
OBJSENSE
	MAX
ROWS
	N	obj
	L	c1
	L	c2
	E	c3
COLUMNS
	x1	obj	1
	x1	c1	-1
	x1	c2	1
	x2	obj	2
	x2	c1	1
	x2	c2	-3
	x2	c3	1
	x3	obj	3
	x3	c1	1
	x3	c2	1
	MARKER	'MARKER'	'INTORG'
	x4	obj	1
	x4	c1	10
	x4	c3	-3.5
	MARKER	'MARKER'	'INTEND'
RHS
	RHS	c1	20
	RHS	c2	30
BOUNDS
	UP	BND	x1	40
	LO	BND	x4	2
	UP	BND	x4	3
ENDATA
