% n parcels in as few boxes of size c as can be.
int: n; int: c; set of int: N = 1..n;
array[N] of int: size = sort_by([9 + ((i*i*53 + i*17) mod 127) mod 31 | i in N], [-(9 + ((i*i*53 + i*17) mod 127) mod 31) | i in N]);
array[N] of var N: box; var N: boxes;
constraint forall(i in N)(box[i] <= boxes /\ box[i] <= i);
constraint forall(b in N)(sum(i in N)(size[i]*bool2int(box[i] = b)) <= c);
solve :: int_search([boxes] ++ box, input_order, indomain_min, complete) minimize boxes;
