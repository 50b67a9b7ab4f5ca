// Broken for the crate: forms of OpenQASM 3 that it does not read.
extern threshold(float, int[32]) -> bit;
int[8] mask = ~5;
box[2us] { x $0; }
def total(readonly array[int[8], 4] list) -> int {
    return list[0];
}
