// A calibration loop: Ramsey fringes over a range of waits.
OPENQASM 3.0;
include "stdgates.inc";
const int shots = 1000;
const duration tick = 100ns;
qubit q;
bit outcome;
int counts = 0;
for int step in [0:2:40] {
    for uint shot in [1:shots] {
        reset q;
        h q;
        delay[step * tick] q;
        barrier q;
        rz(0.125) q;
        h q;
        outcome = measure q;
        if (outcome) {
            counts += 1;
        } else {
            continue;
        }
    }
}
for int amplitude in {1, 3, 5, 8} {
    rx(amplitude * 0.01) q;
    delay[10us] q;
}
