\ Ship pallets from three plants to four markets at the least cost.
Minimize
 cost:
  11.4 lyon_bern + 18.25 lyon_munich + 15.1 lyon_milan + 14.35 lyon_nice
  + 20.5 graz_bern + 12.05 graz_munich + 16.8 graz_milan + 23.9 graz_nice
  + 9.75 turin_bern + 16.4 turin_munich + 5.2 turin_milan + 7.65 turin_nice
Subject To
 supply_lyon: lyon_bern + lyon_munich + lyon_milan + lyon_nice <= 420
 supply_graz: graz_bern + graz_munich + graz_milan + graz_nice <= 350
 supply_turin: turin_bern + turin_munich + turin_milan + turin_nice <= 280
 demand_bern: lyon_bern + graz_bern + turin_bern >= 240
 demand_munich: lyon_munich + graz_munich + turin_munich >= 310
 demand_milan: lyon_milan + graz_milan + turin_milan >= 190
 demand_nice: lyon_nice + graz_nice + turin_nice >= 150
End
