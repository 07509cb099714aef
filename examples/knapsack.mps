NAME          KNAPSACK
OBJSENSE
    MAX
ROWS
 N  use
 L  weight
 L  volume
 G  shelter
COLUMNS
    MARKER    'MARKER'  'INTORG'
    tent          use       90    weight    2.8
    tent          volume    6.5   shelter   1
    stove         use       45    weight    0.65
    stove         volume    1.8
    rope          use       38    weight    2.1
    rope          volume    3
    down_jacket   use       52    weight    0.55
    down_jacket   volume    4.2
    first_aid     use       70    weight    0.4
    first_aid     volume    1.1
    camera        use       30    weight    1.25
    camera        volume    1.6
    food_box      use       85    weight    3.2
    food_box      volume    5
    water         use       95    weight    3
    water         volume    3
    sleeping_bag  use       88    weight    1.4
    sleeping_bag  volume    7.5   shelter   1
    map_case      use       25    weight    0.15
    map_case      volume    0.3
    MARKER    'MARKER'  'INTEND'
RHS
    LIMIT     weight    12.5  volume    20
    LIMIT     shelter   1
BOUNDS
 UP BND       tent          1
 UP BND       stove         1
 UP BND       rope          1
 UP BND       down_jacket   1
 UP BND       first_aid     1
 UP BND       camera        1
 UP BND       food_box      1
 UP BND       water         1
 UP BND       sleeping_bag  1
 UP BND       map_case      1
ENDATA
