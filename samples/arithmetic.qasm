// Classical arithmetic, with the crate's operators.
int a = 1 + 2 * 3 - 4 / 2 % 5;
int b = (a + 1) * -a;
bool c = a & b == 1 | a ^ b << 2;
bool d = a < b && b <= 3 || !c;
bool e = a >> 1 != b;
bool g = a == b < c;
a += b;
b <<= 2;
b >>= 1;
a |= b ^ 7;
float f = 1.5e3 - 0.25;
a = 2;
