\ What to pack for a week in the mountains: the most useful load
\ of at most 12.5 kg and 20 litres, with something to sleep in.
Maximize
 use: 90 tent + 45 stove + 38 rope + 52 down_jacket + 70 first_aid
   + 30 camera + 85 food_box + 95 water + 88 sleeping_bag + 25 map_case
Subject To
 weight: 2.8 tent + 0.65 stove + 2.1 rope + 0.55 down_jacket + 0.4 first_aid
   + 1.25 camera + 3.2 food_box + 3 water + 1.4 sleeping_bag + 0.15 map_case <= 12.5
 volume: 6.5 tent + 1.8 stove + 3 rope + 4.2 down_jacket + 1.1 first_aid
   + 1.6 camera + 5 food_box + 3 water + 7.5 sleeping_bag + 0.3 map_case <= 20
 shelter: tent + sleeping_bag >= 1
Binaries
 tent stove rope down_jacket first_aid
 camera food_box water sleeping_bag map_case
End
