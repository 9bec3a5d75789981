% Which powers lie within 30 of 0; an exponent below 0 means 1 div the power.
var -3..3: base;
var -2..4: exponent;
var -30..30: power;
constraint pow(base, exponent) = power;
solve satisfy;
