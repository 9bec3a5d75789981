% n exams in k slots with s seats each: no student has two at one time, and as few pairs as can be of one student's follow each other.
int: n; int: k; int: s; set of int: E = 1..n;
array[E] of int: seats = [20 + ((i*i*47 + i*19) mod 113) mod 60 | i in E];
array[E,E] of int: both = array2d(E, E, [ if i < j /\ ((i*i*13 + j*j*31 + i*j*7) mod 103) mod 4 = 0 then 1 + (i*j) mod 5 else 0 endif | i, j in E]);
array[E] of var 1..k: slot; var int: cost;
constraint forall(i, j in E where both[i,j] > 0)(slot[i] != slot[j]);
constraint forall(t in 1..k)(sum(i in E)(seats[i]*bool2int(slot[i] = t)) <= s);
constraint cost = sum(i, j in E where both[i,j] > 0)(both[i,j]*bool2int(abs(slot[i] - slot[j]) = 1));
solve :: int_search(slot, first_fail, indomain_min, complete) minimize cost;
