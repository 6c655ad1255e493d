#include "scanner.h"

static void lex(const unsigned char *cursor, const unsigned char *limit)
{
    const unsigned char *marker;
    (void)marker;
    for (;;) {
        /*!re2c
            re2c:define:YYCTYPE = "unsigned char";
            re2c:define:YYCURSOR = cursor;
            re2c:define:YYMARKER = marker;
            re2c:yyfill:enable = 0;

            octet = "25"[0-5] | "2"[0-4][0-9] | "1"[0-9][0-9] | [1-9]?[0-9];
            address = octet ("." octet){3};
            clock = [0-2][0-9] ":" [0-5][0-9] ":" [0-5][0-9];
            month = "Jan" | "Feb" | "Mar" | "Apr" | "May" | "Jun" | "Jul" | "Aug" | "Sep" | "Oct" | "Nov" | "Dec";
            word = [A-Za-z_][A-Za-z0-9_.-]*;
            [0-9]{4} "-" [01][0-9] "-" [0-3][0-9] [T ] clock ([.,][0-9]{1,9})? ("Z" | [-+][0-9]{2} ":"? [0-9]{2})? { tokens++; continue; }
            month " " [ 0-3][0-9] " " clock { tokens++; continue; }
            [0-9a-f]{2} (":" [0-9a-f]{2}){5} { tokens++; continue; }
            address "/" [0-9]{1,2} { tokens++; continue; }
            address ":" [0-9]{1,5} { tokens++; continue; }
            address { tokens++; continue; }
            "TRACE" | "DEBUG" | "INFO" | "NOTICE" | "WARN" "ING"? | "ERR" "OR"? | "CRIT" "ICAL"? | "FATAL" { tokens++; continue; }
            word "[" [0-9]+ "]:" { tokens++; continue; }
            word "=" { tokens++; continue; }
            "0x"[0-9a-fA-F]+ { tokens++; continue; }
            [0-9]+ ("." [0-9]+)? ([num]? "s" | [kMG]? "B" | "%") { tokens++; continue; }
            [0-9]+ { tokens++; continue; }
            "/" [^ \t\r\n"'?\x00]* { tokens++; continue; }
            word { tokens++; continue; }
            ["]([^"\\\n\x00]|[\\][^\n\x00])*["] { tokens++; continue; }
            [[\](){}<>,;:=!?#|+*&@%.-] { tokens++; continue; }
            [\x80-\xFF]+ { tokens++; continue; }
            "\r"? "\n" { tokens++; continue; }
            [ \t]+ { continue; }
            "\x00" { if (cursor > limit) return; errors++; continue; }
            * { errors++; continue; }
        */
    }
}

#include "re2c_main.h"
