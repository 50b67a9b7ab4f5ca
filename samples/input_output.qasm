// A parametrised program: what comes in and what goes out, casts, a pragma and an annotation.
OPENQASM 3.0;
pragma simulator noise model "thermal"
include "stdgates.inc";
input angle[32] theta;
input int[16] rounds;
output bit[2] result;
output float[64] energy;
qubit[2] q;
@reversible
rx(theta) q[0];
cx q[0], q[1];
float[64] scaled = float[64](rounds) / 2.0;
complex[float[64]] amplitude = 0.5 + 2.0im;
stretch s;
delay[s] q[0];
energy = scaled;
result = measure q;
