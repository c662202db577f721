/* How many primes are below 200, and their sum, by a sieve. */
#define MOST 200

static unsigned char crossed[MOST];

unsigned count;
unsigned sum;

static void cross_out(unsigned prime)
{
    for (unsigned n = prime + prime; n < MOST; n += prime)
        crossed[n] = 1;
}

int main(void)
{
    for (unsigned n = 2; n < MOST; n++)
        if (!crossed[n]) {
            count++;
            sum += n;
            cross_out(n);
        }
    return (int)sum;
}
