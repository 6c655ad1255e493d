#include "scanner.h"

static void lex(const unsigned char *cursor, const unsigned char *limit)
{
    const unsigned char *marker;
    (void)marker;
    for (;;) {
        /*!re2c
            re2c:define:YYCTYPE = "unsigned char";
            re2c:define:YYCURSOR = cursor;
            re2c:define:YYMARKER = marker;
            re2c:yyfill:enable = 0;

            int = "-"? ("0" | [1-9][0-9]*);
            exponent = [eE][-+]?[0-9]+;
            "query" | "mutation" | "subscription" | "fragment" | "on" | "type" | "interface" { tokens++; continue; }
            "union" | "enum" | "input" | "scalar" | "schema" | "directive" | "extend" { tokens++; continue; }
            "implements" | "true" | "false" | "null" { tokens++; continue; }
            [_A-Za-z][_0-9A-Za-z]* { tokens++; continue; }
            int { tokens++; continue; }
            int ("." [0-9]+ exponent? | exponent) { tokens++; continue; }
            ["]{3}([^"\\\x00]|[\\]["]{3}|[\\][^"\x00]|["][^"\x00]|["]{2}[^"\x00])*["]{3} { tokens++; continue; }
            ["]([^"\\\n\r\x00]|[\\](["\\/bfnrt]|"u"[0-9A-Fa-f]{4}))*["] { tokens++; continue; }
            "..." { tokens++; continue; }
            [!$&():=@[\]{|}] { tokens++; continue; }
            [ \t\r\n,]+ { continue; }
            "#"[^\n\r\x00]* { continue; }
            "\x00" { if (cursor > limit) return; errors++; continue; }
            * { errors++; continue; }
        */
    }
}

#include "re2c_main.h"
