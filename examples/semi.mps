NAME          FUEL
OBJSENSE
    MAX
ROWS
 N  use
 L  weight
 L  burnt
COLUMNS
    MARKER    'MARKER'  'INTORG'
    tent      use       90    weight    2.8
    stove     use       60    weight    0.8
    stove     burnt     0.5
    book      use       15    weight    0.4
    MARKER    'MARKER'  'INTEND'
    fuel      use       24    weight    1.2
    fuel      burnt     -1
RHS
    LIMIT     weight    4.5
BOUNDS
 LO BND       fuel      0.8
 SC BND       fuel      2
ENDATA
