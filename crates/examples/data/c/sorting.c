/* Words of a text, sorted: a table of pointers into it, a heap of its own, and a function that is called by its address. */
static const char text[] = "reservation station register update unit load store queue dispatch issue writeback commit";

char *words[16];
int count;
char joined[128];

extern char end[]; /* where the linker script has the heap begin */
static char *heap = end;

static char *allocate(int size)
{
    char *block = heap;
    heap += size;
    return block;
}

static int by_letters(const char *a, const char *b)
{
    while (*a != 0 && *a == *b) {
        a++;
        b++;
    }
    return (unsigned char)*a - (unsigned char)*b;
}

static void cut_words(const char *from)
{
    while (*from != 0) {
        int length = 0;
        while (from[length] != 0 && from[length] != ' ')
            length++;
        char *word = allocate(length + 1);
        for (int k = 0; k < length; k++)
            word[k] = from[k];
        words[count++] = word;
        from += length;
        while (*from == ' ')
            from++;
    }
}

static void sort(char **table, int length, int (*compare)(const char *, const char *))
{
    for (int k = 1; k < length; k++) {
        char *word = table[k];
        int at = k;
        for (; at > 0 && compare(table[at - 1], word) > 0; at--)
            table[at] = table[at - 1];
        table[at] = word;
    }
}

int main(void)
{
    char *to = joined;
    cut_words(text);
    sort(words, count, by_letters);
    for (int k = 0; k < count; k++) {
        for (const char *from = words[k]; *from != 0; from++)
            *to++ = *from;
        *to++ = ' ';
    }
    return count;
}
