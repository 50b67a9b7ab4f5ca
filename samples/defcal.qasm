// Calibrations: a grammar, a cal block, and defcals with and without an angle.
OPENQASM 3.0;
defcalgrammar "openpulse";
cal {
    int drive = 5;
    float width = 0.25;
}
defcal x q {
    play(drive, width);
}
defcal rz(angle[20] theta) q {
    shift_phase(drive, -theta);
}
defcal readout q -> bit {
    return capture(drive, 300);
}
x $0;
rz(0.5) $1;
bit b = measure $0;
