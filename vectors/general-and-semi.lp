min x
gen
x
semi
x
end
