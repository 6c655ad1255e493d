#include "scanner.h"

static void lex(const unsigned char *cursor, const unsigned char *limit)
{
    const unsigned char *marker;
    (void)marker;
    for (;;) {
        /*!re2c
            re2c:define:YYCTYPE = "unsigned char";
            re2c:define:YYCURSOR = cursor;
            re2c:define:YYMARKER = marker;
            re2c:yyfill:enable = 0;

            "if" | "else" | "while" | "for" | "return" { tokens++; continue; }
            "let" | "fn" | "break" | "continue" | "struct" { tokens++; continue; }
            [A-Za-z_][A-Za-z0-9_]* { tokens++; continue; }
            [0-9]+("."[0-9]+)? { tokens++; continue; }
            ["]([^"\\\n\x00]|[\\][^\n\x00])*["] { tokens++; continue; }
            [-+*/=<>!(){};,.[\]] | "==" | "!=" | "<=" | ">=" | "&&" | "||" { tokens++; continue; }
            [ \t\n]+ { continue; }
            "\x00" { if (cursor > limit) return; errors++; continue; }
            * { errors++; continue; }
        */
    }
}

#include "re2c_main.h"
