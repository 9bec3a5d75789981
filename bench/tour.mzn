% A round trip of n places by their order on it: the shortest.
int: n; array[1..n*n] of int: far=[if i=j then 0 else 5+abs((i*29) mod 41-(j*29) mod 41)+abs((i*13) mod 37-(j*13) mod 37) endif|i,j in 1..n];
array[1..n] of var 1..n: at; array[1..n] of var 0..100: step;
constraint at[1]=1 /\ at[2]<at[n]; constraint forall(i,j in 1..n where i<j)(at[i]!=at[j]);
constraint forall(i in 1..n)(step[i]=far[(at[i]-1)*n+at[i mod n+1]]);
solve :: int_search(at,input_order,indomain_min,complete) minimize sum(step);
