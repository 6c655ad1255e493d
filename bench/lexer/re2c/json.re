#include "scanner.h"

static void lex(const unsigned char *cursor, const unsigned char *limit)
{
    const unsigned char *marker;
    (void)marker;
    for (;;) {
        /*!re2c
            re2c:define:YYCTYPE = "unsigned char";
            re2c:define:YYCURSOR = cursor;
            re2c:define:YYMARKER = marker;
            re2c:yyfill:enable = 0;

            "{" | "}" | "[" | "]" | ":" | "," { tokens++; continue; }
            "null" | "true" | "false" { tokens++; continue; }
            "-"?("0"|[1-9][0-9]*)("."[0-9]+)?([eE][-+]?[0-9]+)? { tokens++; continue; }
            ["]([^"\\\x00-\x1F]|[\\](["\\/bfnrt]|"u"[0-9A-Fa-f]{4}))*["] { tokens++; continue; }
            [ \t\r\n]+ { continue; }
            "\x00" { if (cursor > limit) return; errors++; continue; }
            * { errors++; continue; }
        */
    }
}

#include "re2c_main.h"
