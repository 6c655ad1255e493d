/* The end of the scanners for re2c and ragel. */
static void scan(char *text, size_t size)
{
    lex((const unsigned char *)text, (const unsigned char *)text + size);
}

int main(int argc, char **argv)
{
    return measure(argc, argv, scan);
}
