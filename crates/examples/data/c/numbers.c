/* The greatest common divisor of two numbers, a power modulo a prime, and a number's decimal digits: multiply and
   divide. */
char digits[12];
unsigned divisor;
unsigned power;

static unsigned greatest_common_divisor(unsigned a, unsigned b)
{
    while (b != 0) {
        unsigned rest = a % b;
        a = b;
        b = rest;
    }
    return a;
}

static unsigned power_modulo(unsigned base, unsigned exponent, unsigned modulus)
{
    unsigned product = 1;
    for (; exponent != 0; exponent /= 2) {
        if (exponent % 2 != 0)
            product = product * base % modulus;
        base = base * base % modulus;
    }
    return product;
}

static void write_decimal(int number, char *to)
{
    char turned[12];
    int length = 0;
    unsigned left = number < 0 ? -(unsigned)number : (unsigned)number;
    if (number < 0)
        *to++ = '-';
    do {
        turned[length++] = (char)('0' + left % 10);
        left /= 10;
    } while (left != 0);
    while (length > 0)
        *to++ = turned[--length];
    *to = 0;
}

int main(void)
{
    divisor = greatest_common_divisor(3780, 2079);
    power = power_modulo(7, 1000, 30011);
    write_decimal(-(int)(divisor * power), digits);
    return 0;
}
