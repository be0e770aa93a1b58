// gcd.c: the greatest common divisor.
__attribute__((export_name("gcd"))) unsigned gcd(unsigned a, unsigned b) {
    while (b) { unsigned rest = a % b; a = b; b = rest; }
    return a;
}
