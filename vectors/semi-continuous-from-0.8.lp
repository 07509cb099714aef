Maximize
use: 24 fuel
st
burnt: - fuel <= 0
Bounds
0.8 <= fuel <= 2
semi-continuous
fuel
end
