// Broken: a delay without its duration, where the crate panics.
qubit q;
delay q;
