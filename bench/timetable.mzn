% n lessons in k hours and r rooms: lessons of one teacher or one class aren't at the same hour, no room is used twice at an hour,
% and what the hours cost is least.
int: n; int: k; int: r; array[1..n] of var 1..k: hour; array[1..n] of var 1..r: room;
array[1..n] of int: teacher=[1+(i*5) mod 6|i in 1..n]; array[1..n] of int: class=[1+(i*3+i div 4) mod 5|i in 1..n];
array[1..k] of int: price=[1+(h*7) mod 4+h div 3|h in 1..k];
constraint forall(i,j in 1..n where i<j)(if teacher[i]=teacher[j] \/ class[i]=class[j] then hour[i]!=hour[j] else hour[i]!=hour[j] \/ room[i]!=room[j] endif);
constraint forall(i in 1..n)(room[i]>=1+i mod 2);
solve :: int_search([if b=0 then hour[i] else room[i] endif|i in 1..n,b in 0..1],first_fail,indomain_min,complete)
  minimize sum(i in 1..n)(price[hour[i]]);
