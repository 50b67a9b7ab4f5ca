// Greek letters are text in comments (θ, π) and strings, and no tokens outside of them: an error for each byte.
OPENQASM 3.0;
include "πύλες.inc";
qubit q;
angle[32] theta = pi / 2;
rx(theta) q;
angle[32] θ = π / 2;
rx(θ) q;
