// Broken: an expression that is none, a missing name, a semicolon too many.
int = 5;
x = 3 + ;
;
qubit[;
