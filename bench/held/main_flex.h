/* The end of the scanners for flex. */
static void scan(char *text, size_t size)
{
    YY_BUFFER_STATE buffer = yy_scan_buffer(text, size + 2);
    yylex();
    yy_delete_buffer(buffer);
}

int main(int argc, char **argv)
{
    return measure(argc, argv, scan);
}
