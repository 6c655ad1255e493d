#include "scanner.h"

static void lex(const unsigned char *cursor, const unsigned char *limit)
{
    const unsigned char *marker;
    const unsigned char *context;
    (void)marker;
    for (;;) {
        const unsigned char *start = cursor;
        /*!re2c
            re2c:define:YYCTYPE = "unsigned char";
            re2c:define:YYCURSOR = cursor;
            re2c:define:YYMARKER = marker;
            re2c:define:YYCTXMARKER = context;
            re2c:yyfill:enable = 0;

            path = [a-zA-Z_][a-zA-Z0-9_]*("."[a-zA-Z0-9_]+)*;

            [^{ \t\r\n\\\x00]+ | "{" | "\\" { tokens++; continue; }
            [ \t]+ / [\n\x00] { tokens++; continue; }
            [ \t]+ { tokens++; continue; }
            "\r"? "\n" | "\r" { tokens++; continue; }
            "\\{{" { tokens++; continue; }
            "{{" "{"? [#/^&]? " "* path (" "* "|" " "* path)* " "* "}}" "}"? { COUNT_SHORT(cursor - start); continue; }
            "{{!" ([^}\x00]|"}"[^}\x00])* "}}" { tokens++; continue; }
            "{{" | "{{{" { tokens++; continue; }
            "\x00" { if (cursor > limit) return; errors++; continue; }
            * { errors++; continue; }
        */
    }
}

#include "re2c_main.h"
