#include "scanner.h"

static void lex(const unsigned char *cursor, const unsigned char *limit)
{
    const unsigned char *marker;
    (void)marker;
    for (;;) {
        /*!re2c
            re2c:define:YYCTYPE = "unsigned char";
            re2c:define:YYCURSOR = cursor;
            re2c:define:YYMARKER = marker;
            re2c:yyfill:enable = 0;

            blank = [ \t\r\n]*;
            name = [a-zA-Z_][a-zA-Z0-9_.-]* | ".";
            ([^{\x00] | "{" [^{\x00])+ { tokens++; continue; }
            "{{" blank name blank "}}" { tokens++; continue; }
            "{{{" blank name blank "}}}" { tokens++; continue; }
            "{{" [&#^/>] blank name blank "}}" { tokens++; continue; }
            "{{!" [^}\x00]* "}}" { tokens++; continue; }
            "\x00" { if (cursor > limit) return; errors++; continue; }
            * { errors++; continue; }
        */
    }
}

#include "re2c_main.h"
