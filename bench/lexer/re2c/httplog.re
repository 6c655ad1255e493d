#include "scanner.h"

static void lex(const unsigned char *cursor, const unsigned char *limit)
{
    const unsigned char *marker;
    (void)marker;
    for (;;) {
        /*!re2c
            re2c:define:YYCTYPE = "unsigned char";
            re2c:define:YYCURSOR = cursor;
            re2c:define:YYMARKER = marker;
            re2c:yyfill:enable = 0;

            byte = "25"[0-5] | "2"[0-4][0-9] | "1"?[0-9]?[0-9];
            method = "GET" | "HEAD" | "POST" | "PUT" | "DELETE" | "OPTIONS" | "PATCH";
            ["] method " " [^" \x00]+ " HTTP/" [0-9] ("." [0-9])? ["] { tokens++; continue; }
            byte ("." byte){3} | [0-9a-fA-F]{0,4} (":" [0-9a-fA-F]{0,4}){2,7} { tokens++; continue; }
            "-" { tokens++; continue; }
            "[" [0-9]{2} "/" [A-Z] [a-z]{2} "/" [0-9]{4} (":" [0-9]{2}){3} " " [-+] [0-9]{4} "]" { tokens++; continue; }
            ["]([^"\\\n\x00]|[\\][^\n\x00])*["] { tokens++; continue; }
            [1-5][0-9]{2} { tokens++; continue; }
            [0-9]+ { tokens++; continue; }
            [0-9]+ "." [0-9]{3} { tokens++; continue; }
            [^ \t\r\n["\x00]+ { tokens++; continue; }
            "\r"? "\n" { tokens++; continue; }
            [ \t]+ { continue; }
            "\x00" { if (cursor > limit) return; errors++; continue; }
            * { errors++; continue; }
        */
    }
}

#include "re2c_main.h"
