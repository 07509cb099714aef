NAME
OBJSENSE
    MAX
ROWS
 N  use
 G  shelter
 L  volume
 L  weight
COLUMNS
    MARKER  'MARKER'  'INTORG'
    camera  use  30
    camera  volume  1.6
    camera  weight  1.25
    down_jacket  use  52
    down_jacket  volume  4.2
    down_jacket  weight  0.55
    first_aid  use  70
    first_aid  volume  1.1
    first_aid  weight  0.4
    food_box  use  85
    food_box  volume  5
    food_box  weight  3.2
    map_case  use  25
    map_case  volume  0.3
    map_case  weight  0.15
    rope  use  38
    rope  volume  3
    rope  weight  2.1
    sleeping_bag  use  88
    sleeping_bag  shelter  1
    sleeping_bag  volume  7.5
    sleeping_bag  weight  1.4
    stove  use  45
    stove  volume  1.8
    stove  weight  0.65
    tent  use  90
    tent  shelter  1
    tent  volume  6.5
    tent  weight  2.8
    water  use  95
    water  volume  3
    water  weight  3
    MARKER  'MARKER'  'INTEND'
RHS
    RHS  shelter  1
    RHS  volume  20
    RHS  weight  12.5
BOUNDS
 UP  BND  camera  1
 UP  BND  down_jacket  1
 UP  BND  first_aid  1
 UP  BND  food_box  1
 UP  BND  map_case  1
 UP  BND  rope  1
 UP  BND  sleeping_bag  1
 UP  BND  stove  1
 UP  BND  tent  1
 UP  BND  water  1
ENDATA
