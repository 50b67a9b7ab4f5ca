// Broken for the crate: a parameter that begins with `const`, at which it spins to its step limit.
def clamp(int[32] x, const int[32] top) -> int[32] {
    return x;
}
