#include "scanner.h"

static void lex(const unsigned char *cursor, const unsigned char *limit)
{
    const unsigned char *marker;
    (void)marker;
    for (;;) {
        const unsigned char *start = cursor;
        /*!re2c
            re2c:define:YYCTYPE = "unsigned char";
            re2c:define:YYCURSOR = cursor;
            re2c:define:YYMARKER = marker;
            re2c:yyfill:enable = 0;

            byte = "25"[0-5]|"2"[0-4][0-9]|"1"[0-9][0-9]|[1-9]?[0-9];
            hex = [0-9a-fA-F]{0,4};

            byte "." byte "." byte "." byte { tokens++; continue; }
            hex (":" hex){2,7} { tokens++; continue; }
            "[" [0-9]{2} "/" ("Jan"|"Feb"|"Mar"|"Apr"|"May"|"Jun"|"Jul"|"Aug"|"Sep"|"Oct"|"Nov"|"Dec") "/" [0-9]{4} (":" [0-9]{2}){3} " " [-+] [0-9]{4} "]" { tokens++; continue; }
            ["] ("GET"|"HEAD"|"POST"|"PUT"|"DELETE"|"PATCH"|"OPTIONS"|"CONNECT"|"TRACE") " " [^" \x00]* " HTTP/" [0-9]+ ("." [0-9]+)? ["] { tokens++; continue; }
            ["] ([^"\\\x00]|[\\][^\n\x00])* ["] { COUNT_SHORT(cursor - start); continue; }
            [1-5][0-9]{2} { tokens++; continue; }
            [0-9]+ { tokens++; continue; }
            "-" { tokens++; continue; }
            [a-zA-Z_][a-zA-Z0-9_.-]* { COUNT_SHORT(cursor - start); continue; }
            "\n" { tokens++; continue; }
            " "+ { continue; }
            "\x00" { if (cursor > limit) return; errors++; continue; }
            * { errors++; continue; }
        */
    }
}

#include "re2c_main.h"
