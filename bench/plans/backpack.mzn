% Which of n things are worth most, where four limits hold.
int: n; set of int: N = 1..n; set of int: R = 1..4;
array[N] of int: worth = [10 + ((i*i*67 + i*31) mod 139) mod 50 | i in N];
array[R,N] of int: weight = array2d(R, N, [5 + ((i*i*23 + r*r*61 + i*r*41) mod 109) mod 40 | r in R, i in N]);
array[N] of var 0..1: takes; var int: sum_of_worth;
constraint forall(r in R)(sum(i in N)(weight[r,i]*takes[i]) <= (sum(i in N)(weight[r,i])*2) div 5);
constraint sum_of_worth = sum(i in N)(worth[i]*takes[i]);
solve :: int_search(takes, input_order, indomain_max, complete) maximize sum_of_worth;
