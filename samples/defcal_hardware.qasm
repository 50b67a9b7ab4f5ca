// Broken for the crate: a defcal for a hardware qubit, and one for `measure`.
defcal x $0 {
    play(drive, width);
}
defcal measure $0 -> bit {
    return capture(drive, 300);
}
