NAME
OBJSENSE
    MAX
ROWS
 N  use
 L  burnt
 L  weight
COLUMNS
    fuel  use  24
    fuel  burnt  -1
    fuel  weight  1.2
    MARKER  'MARKER'  'INTORG'
    book  use  15
    book  weight  0.4
    stove  use  60
    stove  burnt  0.5
    stove  weight  0.8
    tent  use  90
    tent  weight  2.8
    MARKER  'MARKER'  'INTEND'
RHS
    RHS  weight  4.5
BOUNDS
 UP  BND  book  1
 LO  BND  fuel  0.8
 SC  BND  fuel  2
 UP  BND  stove  1
 UP  BND  tent  1
ENDATA
