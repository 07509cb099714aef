NAME
OBJSENSE
    MAX
ROWS
 N  use
 L  burnt
COLUMNS
    fuel  use  24
    fuel  burnt  -1
BOUNDS
 LO  BND  fuel  0.8
 SC  BND  fuel  2
ENDATA
