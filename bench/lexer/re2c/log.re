#include "scanner.h"

static void lex(const unsigned char *cursor, const unsigned char *limit)
{
    const unsigned char *marker;
    (void)marker;
    for (;;) {
        /*!re2c
            re2c:define:YYCTYPE = "unsigned char";
            re2c:define:YYCURSOR = cursor;
            re2c:define:YYMARKER = marker;
            re2c:yyfill:enable = 0;

            [0-9]{4}"-"[0-9]{2}"-"[0-9]{2}"T"[0-9]{2}":"[0-9]{2}":"[0-9]{2}"."[0-9]{3}"Z" { tokens++; continue; }
            "TRACE" | "DEBUG" | "INFO" | "WARN" | "ERROR" { tokens++; continue; }
            [0-9]+"."[0-9]+"."[0-9]+"."[0-9]+ { tokens++; continue; }
            [0-9]+("."[0-9]+)?("ms"|"us"|"s"|"kB"|"MB")? { tokens++; continue; }
            [A-Za-z_][A-Za-z0-9_]*([.-][A-Za-z0-9_]+)* { tokens++; continue; }
            "/"[-A-Za-z0-9_./?=&%+]* { tokens++; continue; }
            ["][^"\r\n\x00]*["] { tokens++; continue; }
            "[" | "]" | "=" | ":" | "," | "\n" { tokens++; continue; }
            [ \t]+ { continue; }
            "\x00" { if (cursor > limit) return; errors++; continue; }
            * { errors++; continue; }
        */
    }
}

#include "re2c_main.h"
